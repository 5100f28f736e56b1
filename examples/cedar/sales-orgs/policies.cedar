// Presentations and templates of a sales organization, with internal and external users.

@id("external presentation view")
permit (principal, action in Action::"ExternalPrezViewActions", resource)
when {
    resource.owner == principal ||
    resource.viewers.contains(principal) ||
    resource.editors.contains(principal)
};

@id("internal presentation view")
permit (principal, action in Action::"InternalPrezViewActions", resource)
when { principal.job == Job::"internal" }
when {
    resource.owner == principal ||
    resource.viewers.contains(principal) ||
    resource.editors.contains(principal)
};

@id("presentation edit")
permit (principal, action in Action::"PrezEditActions", resource)
when { resource.owner == principal || resource.editors.contains(principal) };

@id("limit access to external")
forbid (principal, action == Action::"grantViewAccessToPresentation", resource)
when {
    principal.job != Job::"internal" &&
    principal.customerId != context.target.customerId
};

@id("template view by market")
permit (principal, action == Action::"viewTemplate", resource)
when { principal in resource.viewerMarkets || resource.viewers.contains(principal) };
