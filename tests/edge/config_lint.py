"""Searches nginx's configuration for the faults that such files often have: what each of gixy's checks finds (requests that go where a
client says, response splitting, fields that a location loses or that have two lines, a forged Host, origins and referers matched by a
part, aliases out of their folder), and some more. Debian 12 has no gixy.

Not a script: tests/edge/attacks runs it on the files of edge/, and first on texts that have each fault.
"""
import os
import re

# Directives whose words reach a client's head, an origin's request or a file's name.
TOLD = {"return", "rewrite", "add_header", "proxy_pass", "proxy_set_header", "proxy_redirect", "alias", "root", "set"}
# What a client says, as he says it: a line feed or a slash in it would make two of one.
RAW = re.compile(r"\$(?:uri|hls_said|document_uri|request_uri|args|query_string|http_\w+|arg_\w+|cookie_\w+|request|request_body)\b")
# Where that is as it should be: HTTP keeps line feeds out of these, the first goes back to who sent it, and the last is the log's.
RAW_ALLOWED = {("return", "301 https://$hls_own_host$request_uri"), ("proxy_pass", "http://hls_$hls_process$hls_path$is_args$args"), ("proxy_set_header", "$http_range"), ("proxy_set_header", "$http_x_range"),
               ("set", "$hls_said $uri")}
# Where a request may go: variables that maps make of known channels, or that are captured from an inner path by a narrow form.
TARGETS = {"hls_inner", "hls_$hls_process", "hls_$hls_process$hls_path", "hls_$hls_process$hls_path$is_args$args", "hls_$in_process$in_path", "hls_$in_channel.$in_number$in_path", "hls_$in_channel.0$in_path"}
# What a location that has a field of its own mustn't lose of those around it.
SECURITY = {"x-content-type-options", "strict-transport-security", "referrer-policy", "content-security-policy", "cache-control", "x-frame-options"}


def words_of(text):
    """The text's words, with `{`, `}` and `;` as words of their own; the remarks are left out."""
    for found in re.finditer(r"""\s+|#[^\n]*|"((?:[^"\\]|\\.)*)"|'((?:[^'\\]|\\.)*)'|([{};])|((?:\$\{|[^\s{};"'\\]|\\.)[^\s{};]*)""", text):
        for quoted in found.groups()[:2]:
            if quoted is not None:
                yield False, quoted
        if found[3]:
            yield True, found[3]
        elif found[4]:
            yield False, found[4]


def blocks_of(text, load, depth=0):
    """The text as a list of (words, its block or None), with what it includes in place."""
    stack, words = [[]], []
    for mark, word in words_of(text):
        if not mark:
            words.append(word)
        elif word == ";":
            if words[0] == "include" and load(words[1]) is not None and depth < 5:
                stack[-1].extend(blocks_of(load(words[1]), load, depth + 1))
            else:
                stack[-1].append((words, None))
            words = []
        elif word == "{":
            inner = []
            stack[-1].append((words, inner))
            stack.append(inner)
            words = []
        else:
            stack.pop()
    return stack[0]


def faults(text, load=lambda name: None):
    """What is wrong, in words; `load` gives an included file's text, or None for one that isn't looked at."""
    return list(dict.fromkeys(faults_in(blocks_of(text, load), "", set())))


def faults_in(block, where, inherited):
    fields = {words[1].lower() for words, _ in block if words[0] == "add_header"}
    lost = inherited - fields & SECURITY if fields else set()
    for field in sorted(lost & SECURITY):
        yield f"{where}: loses {field} of the block around it"
    for words, inner in block:
        here = f"{where} {' '.join(words[:2])}".strip()
        yield from faults_of(words, here, inner)
        if inner is not None and words[0] not in ("map", "types"):
            yield from faults_in(inner, here, (fields or inherited) & SECURITY)


def faults_of(words, here, inner):
    name, rest = words[0], words[1:]
    if name in TOLD and (name, " ".join(rest)) not in RAW_ALLOWED:
        for word in rest:
            if RAW.search(word) and (name, word) not in RAW_ALLOWED:
                yield f"{here}: {word} is what a client says, unread"
    if name == "proxy_pass":
        to = re.match(r"(?:https?://)?([^/]*)", rest[0])[1]
        if to not in TARGETS:
            yield f"{here}: goes to {to}"
    if name == "proxy_set_header" and rest[0].lower() == "host" and "$" in rest[1]:
        yield f"{here}: a Host that a client chooses"
    if name == "location" and rest[0] in ("~", "~*"):
        if not (rest[1].startswith("^") and rest[1].endswith(r"\z")):
            yield f"{here}: a part of a path is enough"
        for group in re.findall(r"\(\?<(\w+)>((?:[^()\\]|\\.|\((?:[^()\\]|\\.|\([^()]*\))*\))*)\)", rest[1]):
            if re.search(r"(?<!\\)\.|\[\^|\\[^.]", re.sub(r"\[(?!\^)[^\]]*\]", "", group[1])):
                yield f"{here}: {group[0]} may be anything"
    if name == "location" and rest[0] not in ("=", "~") and inner and any(line[0] == "alias" for line, _ in inner) and not rest[-1].endswith("/"):
        yield f"{here}: an alias out of its folder"
    if name in ("if", "map") and any(re.search(r"\$http_(?:origin|referer)\b", word) for word in rest):
        keys = [line[0] for line, _ in inner or []] if name == "map" else ["~" + rest[at + 1].rstrip(")") for at, word in enumerate(rest) if word.lstrip("!") in ("~", "~*")]
        for key in keys:
            if key.startswith("~") and not re.fullmatch(r"~\*?\^(?:[^.\\]|\\.)*(?:\$|\\z)", key):
                yield f"{here}: a part of an origin is enough for {key}"
    if name == "map" and not any(line[0] == "default" for line, _ in inner):
        yield f"{here}: no default"
    if name == "if" and any(line[0] not in ("return", "add_header") for line, _ in inner or []):
        yield f"{here}: if does more than to return"
    for fault, holds in (("slashes aren't merged", name == "merge_slashes" and rest == ["off"]), ("folders are listed", name == "autoindex" and rest == ["on"]),
                         ("its version is told", name == "server_tokens" and rest != ["off"]), ("an old TLS", name == "ssl_protocols" and bool({"SSLv2", "SSLv3", "TLSv1", "TLSv1.1"} & set(rest))),
                         ("any site is a referer", name == "valid_referers" and "none" in rest), ("a field on two lines", name == "add_header" and any("\n" in word for word in rest))):
        if holds:
            yield f"{here}: {fault}"


# A text for each fault, and a word of what is to be said of it.
SAMPLES = [
    ("server { add_header X-Content-Type-Options nosniff; location / { add_header A b; } }", "loses x-content-type-options"),
    ("location / { return 302 https://$host$uri; }", "unread"),
    ("location / { proxy_pass http://$http_host; }", "unread"),
    ("location / { add_header A $arg_a; }", "unread"),
    ("location / { proxy_pass http://$host; }", "goes to"),
    ("location / { proxy_pass http://hls_$in_process$uri; }", "unread"), ("location / { set $a $uri; }", "unread"), ("location / { proxy_pass http://hls_inner$hls_said; }", "unread"),
    ("location / { proxy_set_header Host $host; }", "a client chooses"),
    (r'location ~ "/live/(?<a>[0-9]+)\z" { }', "part of a path"),
    (r'location ~ "^/live/(?<a>[0-9]+)" { }', "part of a path"),
    (r'location ~ "^/(?<a>[^/]+)\z" { }', "may be anything"),
    (r'location ~ "^/(?<a>.*)\z" { }', "may be anything"),
    (r'location ~ "^/(?<a>(?:x|\s)+)\z" { }', "may be anything"),
    ("location /a { alias /b/; }", "out of its folder"),
    ("location / { if ($a) { set $b c; } }", "more than to return"),
    ('if ($http_origin !~ "a.example") { return 403; }', "part of an origin"), ("if ($http_referer ~* ^https://a\\.example) { return 200; }", "part of an origin"),
    (r'map "$host $http_origin" $a { default 1; "~^https://a.example$" ""; }', "part of an origin"), (r"map $http_origin $a { default 1; ~a\.example$ 2; }", "part of an origin"),
    ("map $a $b { 1 2; }", "no default"),
    ("merge_slashes off;", "merged"), ("autoindex on;", "listed"), ("server_tokens on;", "version"), ("ssl_protocols TLSv1 TLSv1.2;", "old TLS"),
    ("valid_referers none;", "referer"), ('add_header A "b\n c";', "two lines"),
]


def of_files(folder):
    """The faults of the files of edge/, as the site and the part of `http` include them."""
    def read(name):
        with open(os.path.join(folder, name), encoding="utf-8") as file:
            return file.read()
    return [f"{name}: {fault}" for name in ("hls_origin.conf", "hls_site.conf")
            for fault in faults(read(name), lambda included: read(os.path.basename(included)) if included.startswith("/usr/share/hls_origin/nginx/") else None)]
