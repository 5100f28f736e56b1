// A streaming service: free and paying members, early access, renting in a season, bedtime for children.

@id("free-content-access")
permit (principal is FreeMember, action == Action::"watch", resource)
when { resource.isFree };

@id("subscriber-movies")
permit (principal is Subscriber, action == Action::"watch", resource is Movie)
unless { resource.needsRentOrBuy };

@id("subscriber-shows")
permit (principal is Subscriber, action == Action::"watch", resource is Show)
unless { resource.isEarlyAccess };

@id("early-access-shows")
permit (principal is Subscriber, action == Action::"watch", resource is Show)
when {
    resource.isEarlyAccess &&
    principal.subscription.tier == "premium" &&
    context.now.datetime >= resource.releaseDate.offset(duration("-24h"))
};

@id("rent-buy-oscar-movies")
permit (principal is Subscriber, action in [Action::"rent", Action::"buy"], resource is Movie)
when {
    resource.isOscarNominated &&
    context.now.datetime >= datetime("2025-02-02") &&
    context.now.datetime <= datetime("2025-03-31")
};

@id("forbid-bedtime-watch-kid-profile")
forbid (principal is Subscriber, action == Action::"watch", resource)
when { principal.profile.isKid }
unless {
    // The viewer's local time is from 6 to 21 o'clock.
    duration("6h") <= context.now.datetime.offset(context.now.localTimeOffset).toTime() &&
    context.now.datetime.offset(context.now.localTimeOffset).toTime() <= duration("21h")
};
