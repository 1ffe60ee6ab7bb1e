//! The states of a builder: the component that was given last.

macro_rules! states {
    ($($(#[$doc:meta])* $state:ident => [$($next:ident)*] [$($later:ident)*];)*) => {
        $(
            $(#[$doc])*
            #[allow(missing_debug_implementations)]
            pub struct $state(());

            $(impl To<$next> for $state {})*

            $(impl AdvanceTo<$later> for $state {})*
        )*
    };
}

/// A state from which the step to `T` may be taken.
pub trait To<T> {}

/// A state from which the steps up to `T` may be left out.
pub trait AdvanceTo<T>: To<T> {}

// For each state: to which states a step leads, and which of them may be reached without one.
states! {
    /// The start of a reference.
    Start => [SchemeEnd AuthorityStart PathEnd] [SchemeEnd AuthorityEnd];
    /// The start of a URI or an IRI, which needs a scheme.
    NonRefStart => [SchemeEnd] [];
    /// After the scheme.
    SchemeEnd => [AuthorityStart PathEnd] [AuthorityEnd];
    /// At the start of the authority.
    AuthorityStart => [UserinfoEnd HostEnd] [UserinfoEnd];
    /// After the userinfo.
    UserinfoEnd => [HostEnd] [];
    /// After the host.
    HostEnd => [PortEnd AuthorityEnd] [PortEnd];
    /// After the port.
    PortEnd => [AuthorityEnd] [];
    /// After the authority.
    AuthorityEnd => [PathEnd] [];
    /// After the path.
    PathEnd => [QueryEnd FragmentEnd End] [QueryEnd FragmentEnd];
    /// After the query.
    QueryEnd => [FragmentEnd End] [FragmentEnd];
    /// After the fragment.
    FragmentEnd => [End] [];
    /// The end.
    End => [] [];
}

impl<S: To<AuthorityStart>> To<AuthorityEnd> for S {}
