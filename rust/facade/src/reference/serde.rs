//! The four types as strings of serde's formats.

use super::{Iri, IriRef, Uri, UriRef};
use borrow_or_share::Bos;
use serde::{de, Deserialize, Deserializer, Serialize, Serializer};

#[cfg(feature = "alloc")]
use alloc::string::String;

macro_rules! serde_impls {
    ($($Ty:ident $name:literal;)*) => {
        $(
            /// Writes the text as a string.
            impl<T: Bos<str>> Serialize for $Ty<T> {
                fn serialize<S>(&self, serializer: S) -> Result<S::Ok, S::Error>
                where
                    S: Serializer,
                {
                    serializer.serialize_str(self.as_str())
                }
            }

            /// Reads a string that the input lends, and parses it.
            impl<'de> Deserialize<'de> for $Ty<&'de str> {
                fn deserialize<D>(deserializer: D) -> Result<Self, D::Error>
                where
                    D: Deserializer<'de>,
                {
                    let text: &'de str = Deserialize::deserialize(deserializer)?;
                    Self::parse(text).map_err(|error| {
                        de::Error::custom(format_args!(
                            "failed to parse {text:?} as {}: {error}",
                            $name
                        ))
                    })
                }
            }

            /// Reads a string, and parses it.
            #[cfg(feature = "alloc")]
            impl<'de> Deserialize<'de> for $Ty<String> {
                fn deserialize<D>(deserializer: D) -> Result<Self, D::Error>
                where
                    D: Deserializer<'de>,
                {
                    let text = String::deserialize(deserializer)?;
                    Self::parse(text).map_err(|(error, text)| {
                        // The text and the error change places in the message of fluent-uri 0.4.1.
                        de::Error::custom(format_args!(
                            "failed to parse {error:?} as {}: {text}",
                            $name
                        ))
                    })
                }
            }
        )*
    };
}

serde_impls! {
    Uri "URI";
    UriRef "URI reference";
    Iri "IRI";
    IriRef "IRI reference";
}
