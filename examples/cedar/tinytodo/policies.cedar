// TinyTodo: users keep lists of tasks, and share them with teams.

@id("any user may make and list lists")
permit (
    principal,
    action in [Action::"CreateList", Action::"GetLists"],
    resource == Application::"TinyTodo"
);

@id("owner")
permit (principal, action, resource is List)
when { resource.owner == principal };

@id("readers and editors")
permit (principal, action == Action::"GetList", resource)
when { principal in resource.readers || principal in resource.editors };

@id("editors")
permit (
    principal,
    action in [
        Action::"UpdateList",
        Action::"CreateTask",
        Action::"UpdateTask",
        Action::"DeleteTask",
    ],
    resource,
)
when { principal in resource.editors };

@id("admins")
permit (principal in Team::"Admin", action, resource);

@id("interns make no lists")
@reason("they may not")
forbid (
    principal in Team::"interns",
    action == Action::"CreateList",
    resource == Application::"TinyTodo"
);
