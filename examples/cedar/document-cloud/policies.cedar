// Documents in a cloud drive, shared by lists of who may view, change and manage them.

@id("create")
permit (principal, action in [Action::"CreateDocument", Action::"CreateGroup"], resource == Drive::"drive");

@id("owner")
permit (
    principal,
    action in [Action::"ViewDocument", Action::"ModifyDocument", Action::"DeleteDocument", Action::"AddToShareACL"],
    resource
) when {
    resource.owner == principal
};

@id("view acl")
permit (principal is User, action == Action::"ViewDocument", resource)
when { principal in resource.viewACL };

@id("modify acl")
permit (principal, action == Action::"ModifyDocument", resource)
when { principal in resource.modifyACL };

@id("manage acl")
permit (principal, action == Action::"AddToShareACL", resource)
when { principal in resource.manageACL };

@id("public view")
permit (principal, action == Action::"ViewDocument", resource)
when { resource.publicAccess == "view" || resource.publicAccess == "edit" };

@id("group owner deletes")
permit (principal, action == Action::"DeleteGroup", resource)
when { resource.owner == principal };

// A private document is its owner's alone.
@id("private")
forbid (principal, action == Action::"ViewDocument", resource)
when { resource.isPrivate }
unless { resource.owner == principal };

// One blocks the other.
@id("blocked")
forbid (principal is User, action in [Action::"ViewDocument", Action::"ModifyDocument"], resource)
when {
    resource.owner.blocked.contains(principal) ||
    principal.blocked.contains(resource.owner)
};

@id("not authenticated")
forbid (principal is User, action, resource)
unless { context.is_authenticated };
