// Repositories with five roles, each a group of users; issues belong to repositories.

@id("readers pull and fork")
permit (principal, action in [GitHub::Action::"pull", GitHub::Action::"fork"], resource)
when { principal in resource.readers };

@id("reporters delete issues")
permit (principal, action == GitHub::Action::"delete_issue", resource)
when { principal in resource.repo.readers && principal == resource.reporter };

@id("reporters edit issues")
permit (principal, action == GitHub::Action::"edit_issue", resource)
when { principal in resource.repo.readers && principal == resource.reporter };

@id("triagers assign")
permit (principal, action == GitHub::Action::"assign_issue", resource)
when { principal in resource.repo.triagers };

@id("writers")
permit (principal, action in [GitHub::Action::"push", GitHub::Action::"edit_issue"], resource)
when {
    if resource is GitHub::Issue
    then principal in resource.repo.writers
    else principal in resource.writers
};

@id("admins")
permit (principal, action == GitHub::Action::"add_reader", resource)
when { principal in resource.admins };
