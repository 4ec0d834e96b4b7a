//! The crate of this repository: as structs, and as views, which aren't written here.
use crate::calls::*;
use pkcs1::der::Encode;
use pkcs1::pkcs8::PrivateKeyInfoRef;
use pkcs1::*;

fn put<T: Encode>(value: &T, to: &mut [u8]) -> Option<usize> {
    value.encode_to_slice(to).ok().map(|it| it.len())
}
fn size<T: Encode>(value: &T) -> usize {
    value.encoded_len().map_or(0, |it| it.to_usize())
}
fn unwritten<T>(_: &T, _: &mut [u8]) -> Option<usize> {
    None
}

/// A container, and the key in it.
type Both<'a, Key> = (PrivateKeyInfoRef<'a>, Key);
fn both<'a, Key>(der: &'a [u8], key: impl Fn(PrivateKeyInfoRef<'a>) -> Result<Key>) -> Option<Both<'a, Key>> {
    let info = PrivateKeyInfoRef::try_from(der).ok()?;
    Some((info, key(info).ok()?))
}

/// Parameters, alone and in their algorithm identifier.
macro_rules! params {
    ($alone:ident, $in_algorithm:ident, $value:ident) => {
        reads_and_writes!(
            $alone,
            $value<'a>,
            |b| $value::try_from(b).ok(),
            |b| $value::from_der_strict(b).ok(),
            put,
            size
        );
        reads_and_writes!(
            $in_algorithm,
            $value<'a>,
            |b| $value::from_algorithm_der(b).ok(),
            |b| $value::from_algorithm_der_strict(b).ok(),
            |it: &$value, to| it.encode_algorithm(to).ok().map(|made: &[u8]| made.len()),
            |_: &_| 0
        );
    };
}
reads_and_writes!(PublicKey, RsaPublicKeyRef<'a>, |b| RsaPublicKeyRef::try_from(b).ok(), put, size);
reads_and_writes!(PrivateKey, RsaPrivateKeyRef<'a>, |b| RsaPrivateKeyRef::try_from(b).ok(), put, size);
reads_and_writes!(PrivateKeyViewed, RsaPrivateKeyView<'a>, |b| RsaPrivateKeyView::try_from(b).ok(), unwritten);
reads_and_writes!(
    Container,
    Both<'a, RsaPrivateKeyRef<'a>>,
    |b| both(b, RsaPrivateKeyRef::try_from),
    |it: &Both<_>, to| put(&it.0, to),
    |it: &Both<_>| size(&it.0)
);
reads_and_writes!(ContainerViewed, Both<'a, RsaPrivateKeyView<'a>>, |b| both(b, |it| it.rsa_view()), unwritten);
params!(PssParams, PssAlgorithm, RsaPssParamsRef);
params!(PssViewed, PssAlgorithmViewed, RsaPssParamsView);
params!(OaepParams, OaepAlgorithm, RsaOaepParamsRef);
params!(OaepViewed, OaepAlgorithmViewed, RsaOaepParamsView);

library!(
    crate_structs,
    c"our crate, structs",
    1,
    [PublicKey, PrivateKey, PrivateKey, PssParams, PssAlgorithm, OaepParams, OaepAlgorithm, Container]
);
library!(
    crate_views,
    c"our crate, views",
    0,
    [
        PublicKey,
        PrivateKeyViewed,
        PrivateKeyViewed,
        PssViewed,
        PssAlgorithmViewed,
        OaepViewed,
        OaepAlgorithmViewed,
        ContainerViewed
    ]
);
