// Hotels in chains; what a user may do stands in sets of hotels and properties.

@id("view")
permit (principal, action == Action::"viewReservation", resource)
when {
    resource in principal.viewPermissions.hotelReservations ||
    resource in principal.viewPermissions.propertyReservations
};

@id("member")
permit (principal, action in [Action::"updateReservation", Action::"createReservation"], resource)
when {
    resource in principal.memberPermissions.hotelReservations ||
    resource in principal.memberPermissions.propertyReservations
};

@id("admin of hotels")
permit (principal, action, resource)
when { resource in principal.hotelAdminPermissions };

// A template; links.json has a link of it.
@id("who may see it (template)")
permit (
    principal == ?principal,
    action == Action::"viewProperty",
    resource in ?resource
);
