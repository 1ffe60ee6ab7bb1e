"""Scrapy's duplicates by the normal form of their URLs. In the settings of a project:

    REQUEST_FINGERPRINTER_CLASS = "normal_form_filter.NormalFormFingerprinter"
    DUPEFILTER_CLASS = "normal_form_filter.NormalFormDupeFilter"
"""

import hashlib
from weakref import WeakKeyDictionary

from fluent_uri import ParseError, Uri
from scrapy.dupefilters import RFPDupeFilter


def normal_url(url):
    """Returns the normal form of what a URL is mended to, without its fragment.

    An authority without a path gets the path `/` (RFC 3986, section 6.2.3). A URL that cannot be
    mended is returned as it is. It is not a URI, so it differs from every normal form.
    """
    try:
        uri = Uri.mend(url)
    except ParseError:
        return url
    if uri.fragment is not None:
        uri = uri.with_fragment(None)
    uri = uri.normalize()
    if uri.path or uri.authority is None:
        return str(uri)
    before = f"{uri.scheme}://{uri.authority}"
    return f"{before}/{str(uri)[len(before):]}"


class NormalFormFingerprinter:
    """Makes one fingerprint of all requests of a method and a body to equivalent URLs."""

    def __init__(self, crawler=None):
        self._known = WeakKeyDictionary()

    @classmethod
    def from_crawler(cls, crawler):
        return cls(crawler)

    def fingerprint(self, request):
        """Returns 20 bytes."""
        made = self._known.get(request)
        if made is None:
            url, method = normal_url(request.url).encode(), request.method.encode()
            # The lengths say where each ends.
            data = b"%d %d %b%b%b" % (len(url), len(method), url, method, request.body)
            made = self._known[request] = hashlib.blake2b(data, digest_size=20).digest()
        return made


class NormalFormDupeFilter(RFPDupeFilter):
    """Filters by `NormalFormFingerprinter`. The project may have another one for its cache."""

    def __init__(self, path=None, debug=False, *, fingerprinter=None):
        if not isinstance(fingerprinter, NormalFormFingerprinter):
            fingerprinter = NormalFormFingerprinter()
        super().__init__(path, debug, fingerprinter=fingerprinter)
