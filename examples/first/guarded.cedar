@id("adults")
permit (principal, action == Action::"watch", resource)
when { principal has age && principal.age >= 18 };
