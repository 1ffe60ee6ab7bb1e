//! Calls of the proved sources. Their texts are those of `rstd`, and their errors have a case for
//! memory that is denied. This crate aborts there, as `String` does.

use crate::{
    pct_enc::{Encoder, PathEncoder},
    proved::uri_pct::encoder as engine,
};
use core::marker::PhantomData;

#[cfg(feature = "alloc")]
pub(crate) use calls::*;

/// An encoder of this crate as one of the engine: it has the same table.
pub(crate) struct Of<E>(PhantomData<E>);

impl<E: Encoder> engine::Encoder for Of<E> {
    #[inline]
    fn table() -> crate::proved::uri_pct::table::Table {
        E::TABLE.set
    }
}

impl<E: PathEncoder> engine::PathEncoder for Of<E> {}

#[cfg(feature = "alloc")]
mod calls {
    use crate::proved::{
        fluent_uri::{
            roles::{BaseKind, RefKind},
            Reference,
        },
        rstd::{
            self,
            alloc::{AllocError, Global},
        },
        uri_ops::{
            convert::encoded,
            normalize::{NormalizeError, Normalizer},
            resolve::{resolve_to_value, ResolveError, Resolver},
            scheme_rules::SchemeRules,
        },
        uri_parts::{
            core_text::Core, fragment, kind::Kind, packed_positions::PackedPositions, parse::parse,
        },
        uri_pct::pct_enc::EStr,
    };
    use alloc::{
        alloc::{handle_alloc_error, Layout},
        string::String,
    };
    use core::mem;

    /// A text with the positions of its components.
    pub(crate) type Made = (String, PackedPositions);

    #[cold]
    #[inline(never)]
    pub(crate) fn out_of_memory() -> ! {
        handle_alloc_error(Layout::new::<u8>())
    }

    /// Returns what was made, or aborts.
    #[inline]
    pub(crate) fn made<T>(result: Result<T, AllocError>) -> T {
        match result {
            Ok(value) => value,
            Err(AllocError) => out_of_memory(),
        }
    }

    /// Lends a text to a call of the engine.
    #[inline]
    pub(crate) fn with_text<T>(text: &mut String, f: impl FnOnce(&mut rstd::String) -> T) -> T {
        let mut lent = rstd::String(mem::take(text));
        let result = f(&mut lent);
        *text = lent.0;
        result
    }

    /// Returns the engine's value over a text of the kind `K`, whose components are at these
    /// positions.
    #[inline]
    pub(crate) fn reference<K: Kind>(text: &str, at: PackedPositions) -> Reference<K, &str> {
        debug_assert!(parse::<K>(text).is_ok_and(|own| words(own) == words(at)));
        Reference::of_core(Core::new(text, at))
    }

    fn words(at: PackedPositions) -> [usize; 6] {
        [at.scheme_end, at.host_start, at.host_end, at.path_start, at.path_end, at.query_end]
    }

    /// Returns the text and the positions of an owned value of the engine.
    #[inline]
    pub(crate) fn into_made<K: Kind>(reference: Reference<K, rstd::String>) -> Made {
        let core = reference.into_core();
        let at = core.borrow().packed_positions();
        (core.into_string().0, at)
    }

    /// Returns a copy of a text with another fragment, or without one.
    pub(crate) fn with_fragment<K: Kind>(
        text: &str,
        at: PackedPositions,
        fragment: Option<&str>,
    ) -> Result<String, AllocError> {
        let fragment = fragment.map(EStr::<K::FragmentE>::new_or_panic);
        Ok(fragment::with_fragment(Global, text, &at.unpack(text), fragment)?.0)
    }

    /// Replaces the fragment of a text, or removes it.
    pub(crate) fn set_fragment<K: Kind>(
        text: &mut String,
        at: PackedPositions,
        fragment: Option<&str>,
    ) -> Result<(), AllocError> {
        let fragment = fragment.map(EStr::<K::FragmentE>::new_or_panic);
        let at = at.unpack(text);
        with_text(text, |text| fragment::set_fragment(text, &at, fragment))
    }

    /// Normalises a text of the kind `K`.
    pub(crate) fn normalize<K: Kind, S: SchemeRules>(
        (text, at): (&str, PackedPositions),
        normalizer: &Normalizer<S>,
    ) -> Result<Made, NormalizeError> {
        normalizer.normalize(Global, &reference::<K>(text, at)).map(into_made)
    }

    /// Resolves a reference of the kind `K` against a base.
    ///
    /// # Panics
    ///
    /// Panics if the base has no scheme: the default value of `Uri` has none.
    pub(crate) fn resolve<K: RefKind>(
        (base, base_at): (&str, PackedPositions),
        (text, at): (&str, PackedPositions),
        allow_path_underflow: bool,
    ) -> Result<Made, ResolveError> {
        let base = base_of::<K::Base>(base, base_at);
        let reference = reference::<K>(text, at);
        resolve_to_value(Global, &base, &reference, allow_path_underflow).map(into_made)
    }

    /// Resolves a reference of the kind `K` against a base, and normalises the target.
    ///
    /// # Panics
    ///
    /// Panics if the base has no scheme: the default value of `Uri` has none.
    pub(crate) fn resolve_normalized<K: RefKind, S: SchemeRules>(
        (base, base_at): (&str, PackedPositions),
        (text, at): (&str, PackedPositions),
        normalizer: &Normalizer<S>,
    ) -> Result<Made, ResolveError> {
        let resolver = Resolver::with_base(base_of::<K::Base>(base, base_at));
        let reference = reference::<K>(text, at);
        resolver.resolve_normalized(Global, &reference, normalizer).map(into_made)
    }

    /// Returns the engine's value over a base.
    pub(crate) fn base_of<K: BaseKind>(text: &str, at: PackedPositions) -> Reference<K, &str> {
        assert!(at.scheme_end != 0, "assertion failed: base.has_scheme()");
        reference::<K>(text, at)
    }

    /// Percent-encodes the characters past ASCII of a text of the kind `K`.
    pub(crate) fn encode_past_ascii<K: Kind>(
        text: &str,
        at: PackedPositions,
    ) -> Result<Made, AllocError> {
        let (text, at) = encoded::encoded(Global, &reference::<K>(text, at))?;
        Ok((text.0, at))
    }
}
