#!/bin/sh
# Writes the packages that are installed on a Debian system as command lines: a schema, and one document a package.
# sh examples/packages.sh > packages.jsonl
printf '%s\n' '{"schema":[{"name":"title","kind":"text","prefix":"S","step":256},{"name":"any_title","kind":"text","step":256},{"name":"body","kind":"text"},{"name":"name","kind":"filter","prefix":"N"},{"name":"section","kind":"filter","prefix":"C"},{"name":"size","kind":"number","slot":0},{"name":"counted_section","kind":"word","slot":1}]}'
# A description goes on in lines that begin with a space.
dpkg-query -W -f '${db:Status-Status}\t${Package}\t${Section}\t${Installed-Size}\t${Description}\n' | awk -F '\t' '
function text(s) {
    gsub(/\\/, "\\\\&", s)
    gsub(/"/, "\\\"", s)
    gsub(/[[:cntrl:]]/, " ", s)
    return "\"" s "\""
}
function put() {
    if (name != "") {
        title = text(name " - " about)
        printf "{\"add\":{\"title\":%s,\"any_title\":%s,\"body\":%s,", title, title, text(body)
        printf "\"name\":%s,\"section\":%s,\"size\":%s,", text(name), text(section), size
        printf "\"counted_section\":%s},", text(section)
        printf "\"data\":\"%s\\n%s\"}\n", part(name), part(about)
    }
    name = ""
}
function part(s) {
    s = text(s)
    return substr(s, 2, length(s) - 2)
}
/^ / { body = body substr($0, 2) " "; next }
{
    put()
    name = $1 == "installed" ? $2 : ""
    section = $3
    size = $4 ~ /^[0-9]+$/ ? $4 : 0
    about = $5
    body = ""
}
END { put() }'
