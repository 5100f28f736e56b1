@id("adults")
permit (principal, action == Action::"watch", resource)
when { principal.age >= 18 };
