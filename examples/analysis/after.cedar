// The condition is written in another way.
@id("shared photos")
permit (principal, action == Action::"view", resource)
unless { !resource.shared && resource.owner != principal };

// Editors may edit all photos. To remove one, its owner has to be an editor.
@id("own photos")
permit (principal, action == Action::"edit", resource)
when { resource.owner == principal };

@id("editors")
permit (principal in Team::"editors", action == Action::"edit", resource);

@id("removal")
permit (principal in Team::"editors", action == Action::"remove", resource)
when { resource.owner == principal };

@id("suspended")
forbid (principal, action, resource)
when { principal.suspended };
