"""One HTML file that needs nothing else, and in which nothing runs but its own script: what comes
from outside is text in it, never markup, and its policy allows no other script and no address."""
import base64
import hashlib
import html
import json
import os
import string

HERE = os.path.dirname(os.path.abspath(__file__))

NOTE = "A picture proves nothing: scq's words are those of proved code, this page is plain code."
OFF = "The drawing needs this page's own script, which is off here."


def part(name):
    with open(os.path.join(HERE, name), encoding="utf-8") as file:
        return file.read()


def digest(text):
    return "'sha256-" + base64.b64encode(hashlib.sha256(text.encode()).digest()).decode() + "'"


def plain(text):
    """Text that a page can hold whatever it is."""
    return html.escape(str(text).encode("utf-8", "backslashreplace").decode())


def filled(name, **words):
    """A template of this folder with these words, which are markup, in their places."""
    return string.Template(part(name)).substitute(words)


def page(title, body, data, script):
    """`body` is markup that is made here alone, `data` anything, which the script finds as JSON."""
    style, code = part("page.css"), part("page.js") + part(script)
    held = json.dumps(data, separators=(",", ":"), ensure_ascii=True)
    held = held.replace("<", "\\u003c").replace(">", "\\u003e").replace("&", "\\u0026")
    policy = f"default-src 'none'; script-src {digest(code)}; style-src {digest(style)}"
    return f"""<!doctype html>
<html lang="en">
<head>
<meta charset="utf-8">
<meta http-equiv="Content-Security-Policy" content="{policy}">
<meta name="viewport" content="width=device-width, initial-scale=1">
<title>{plain(title)}</title>
<style>{style}</style>
</head>
<body>
{body}
<noscript><p class="wrong">{OFF}</p></noscript>
<footer>{plain(NOTE)}</footer>
<script type="application/json" id="data">{held}</script>
<script>{code}</script>
</body>
</html>
"""
