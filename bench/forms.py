"""The requests that are measured, as each kind of server wants them."""
import base64
import functools
import hashlib

from connections import Ask

PAGE = 1000


def request(method: bytes, target: bytes, content: bytes = b"") -> bytes:
    length = b"Content-Length: %d\r\n" % len(content) if content else b""
    return b"%s %s HTTP/1.1\r\nHost: h\r\n%s\r\n%s" % (method, target, length, content)


def is_done(reply: bytes) -> bool:
    return reply.startswith(b"HTTP/1.1 2")


@functools.cache
def md5_text(content: bytes) -> bytes:
    return base64.b64encode(hashlib.md5(content).digest())


class BucketForms:
    """A bucket, by the JSON API of Cloud Storage."""

    def __init__(self, bucket: bytes):
        self.bucket = bucket
        self.objects = b"/storage/v1/b/%s/o" % bucket

    def insert(self) -> Ask:
        """Makes the bucket, in which what is deleted is gone at once."""
        settings = b'{"name":"%s","softDeletePolicy":{"retentionDurationSeconds":"0"}}' % self.bucket
        return Ask(request(b"POST", b"/storage/v1/b?project=p", settings), is_done)

    def upload(self, name: bytes, content: bytes) -> Ask:
        target = b"/upload%s?uploadType=media&name=%s" % (self.objects, name)
        field = b'"md5Hash":"%s"' % md5_text(content)
        return Ask(request(b"POST", target, content), lambda reply: is_done(reply) and field in reply)

    def metadata(self, name: bytes) -> Ask:
        field = b'"name":"%s"' % name
        return Ask(request(b"GET", b"%s/%s" % (self.objects, name)), lambda reply: is_done(reply) and field in reply)

    def download(self, name: bytes, content: bytes) -> Ask:
        target = b"%s/%s?alt=media" % (self.objects, name)
        return Ask(request(b"GET", target), lambda reply: is_done(reply) and reply.endswith(b"\r\n\r\n" + content))

    def deletion(self, name: bytes) -> Ask:
        return Ask(request(b"DELETE", b"%s/%s" % (self.objects, name)), is_done)

    def page(self, first: bytes) -> Ask:
        """A page of so many objects, from this name on."""
        target = b"%s?maxResults=%d&startOffset=%s" % (self.objects, PAGE, first)
        return Ask(request(b"GET", target), lambda reply: is_done(reply) and reply.count(b'"kind":"storage#object"') == PAGE)


class FileForms:
    """Files, by PUT, GET and DELETE."""

    def upload(self, name: bytes, content: bytes) -> Ask:
        return Ask(request(b"PUT", b"/" + name, content), is_done)

    def download(self, name: bytes, content: bytes) -> Ask:
        return Ask(request(b"GET", b"/" + name), lambda reply: is_done(reply) and reply.endswith(b"\r\n\r\n" + content))

    def deletion(self, name: bytes) -> Ask:
        return Ask(request(b"DELETE", b"/" + name), is_done)
