"""Each call of a value, asked of a package."""


def works(package):
    uri = package.Uri.parse("HTTP://u@a/b/%7ec?d#e")
    assert (uri.host, uri.path) == ("a", "/b/%7ec")
    normal = uri.normalize()
    assert (type(normal), str(normal)) == (package.Uri, "http://u@a/b/~c?d#e")
    target = package.Uri("http://a/b").resolve(package.UriRef("c"))
    assert (type(target), target.path) == (package.Uri, "/c")
    made = package.Iri("x://é/").to_uri(), package.IriRef("é").to_uri()
    assert [type(it) for it in made] == [package.Uri, package.UriRef]
    assert type(package.Iri("x:a").relativize("x:a")) is package.IriRef
    for call in (package.Uri.parse, uri.resolve, uri.relativize):
        try:
            call("a b")
        except package.ParseError as error:
            assert error.index == 1 and type(error) is package.ParseError
        else:
            raise AssertionError("no error")
    assert package.batch.normalize(["A:b", "a b"]) == ["a:b", None]
    assert package.batch.is_valid(["A:b", "a b"]) == [True, False]
    assert package.Uri.try_parse("a b") is None and not package.Uri.is_valid("a b")
    assert str(package.UriRef.mend("a b")) == "a%20b" == package.batch.mend(["a b"])[0]
    assert str(uri.join_link(" ../x y ", keep_fragment=False)) == "HTTP://u@a/x%20y"
    assert type(package.Iri.parse(uri)) is package.Iri and isinstance(uri, package.Reference)
    assert [type(it) for it in package.batch.parse(["a:b"], package.IriRef)] == [package.IriRef]
    assert package.decode(package.encode("é")) == "é".encode()
    assert str(uri / "x/y") == "HTTP://u@a/b/%7ec/x%2Fy" and uri.segments == ("b", "~c")
    assert uri.with_query([("x", "&")]).query_pairs() == [("x", "&")]
