#!/usr/bin/env python3
"""A page with a form, which says of a text whether it is a version, and of which kind.

    form.py [PORT]

It serves this machine alone, on port 8000 if none is named, and prints where. Port 0 stands for any that is free.
"""

import html
import sys
from http.server import BaseHTTPRequestHandler, ThreadingHTTPServer
from urllib.parse import parse_qs

import versions

PAGE = """<!DOCTYPE html>
<html lang="en">
<meta charset="utf-8">
<title>Is it a version?</title>
<style>code {{ white-space: pre-wrap; overflow-wrap: anywhere }}</style>
<form>
<label>Text: <input name="text" value="{text}" autofocus></label>
<button>Is it a version?</button>
</form>
<p>{answer}</p>
</html>
"""


def page(text):
    """The page about a text, or without an answer where that is None."""
    if text is None:
        return PAGE.format(text="", answer="")
    # In an attribute quotes have to be escaped too, as html.escape does.
    escaped, kind = html.escape(text), versions.kind(text)
    said = f"is a version: {kind}" if kind else "is no version"
    return PAGE.format(text=escaped, answer=f"<code>{escaped}</code> {said}.")


class Handler(BaseHTTPRequestHandler):
    def do_GET(self):
        path, _, query = self.path.partition("?")
        if path != "/":
            self.send_error(404)
            return
        # Bytes that are not UTF-8 become U+FFFD.
        (text, *_) = parse_qs(query, keep_blank_values=True).get("text", [None])
        body = page(text).encode()
        self.send_response(200)
        self.send_header("Content-Type", "text/html; charset=utf-8")
        self.send_header("Content-Length", str(len(body)))
        self.send_header("Content-Security-Policy", "default-src 'none'; style-src 'unsafe-inline'; form-action 'self'")
        self.end_headers()
        self.wfile.write(body)


if __name__ == "__main__":
    port = int(sys.argv[1]) if len(sys.argv) > 1 else 8000
    with ThreadingHTTPServer(("127.0.0.1", port), Handler) as server:
        print(f"http://127.0.0.1:{server.server_port}/", flush=True)
        try:
            server.serve_forever()
        except KeyboardInterrupt:
            pass
