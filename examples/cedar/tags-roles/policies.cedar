// Roles whose reach stands in tags of the user: what workspaces of which status and country.

@id("role A writes")
permit (principal in Role::"Role-A", action in Action::"Write", resource)
when {
    principal.hasTag("Role-A-production_status") &&
    resource.hasTag("production_status") &&
    (principal.getTag("Role-A-production_status").contains("ALL") ||
     principal.getTag("Role-A-production_status").containsAll(resource.getTag("production_status")))
}
when {
    if resource.hasTag("country") then
        principal.hasTag("Role-A-country") &&
        (principal.getTag("Role-A-country").contains("ALL") ||
         principal.getTag("Role-A-country").containsAny(resource.getTag("country")))
    else true
};

@id("role B reads")
permit (principal in Role::"Role-B", action == Action::"ReadWorkspace", resource);
