@id("shared photos")
permit (principal, action == Action::"view", resource)
when { resource.shared || resource.owner == principal };

@id("own photos")
permit (principal, action == Action::"edit", resource)
when { resource.owner == principal };

@id("removal")
permit (principal, action == Action::"remove", resource)
when { resource.owner == principal };

@id("suspended")
forbid (principal, action, resource)
when { principal.suspended };
