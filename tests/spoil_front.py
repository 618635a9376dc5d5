#!/usr/bin/env python3
"""Tries whether the cases of tests/front.py about rates, passwords and refused bytes tell when a front's configuration is wrong.

    tests/spoil_front.py [WORD..]

Each change of share/front takes one thing away, or counts by something else, in a copy; a case is run at the front that has it. At least one look
that the change names has to be wrong then, and none of these where nothing was changed. With words, those changes alone whose names have one.
It wants what tests/front.py wants. The last line is 'N looks, M wrong'.
"""
import contextlib
import io
import pathlib
import shutil
import sys
import tempfile

import front
import front_servers as servers
import looks
from looks import look

CONF, SERVER, LUA, HAPROXY = "nginx/conf.d/office.conf", "nginx/office/server", "nginx/office/limits.lua", "haproxy/office/front.cfg"
WAITING = "refused:incr(hour, cost(), 0, 2 * HOUR)"
BY_NGINX_BEHIND = {
    WAITING: "(refused:get(hour) or 0)",
    "not COSTS[ngx.status] then\n    refused:incr(var.charged, -cost())": "COSTS[ngx.status] then\n    refused:incr(var.charged, cost(), 0, 2 * HOUR)",
}
# What is wrong, in which file, what stands there and what then, the case that is to tell it, and what the look says that is wrong then.
SPOILS = [
    ("acts by address", CONF, {'0 "$project $caller"': '0 "$project $remote_addr"'}, front.act_rate, "acts, all answered"),
    ("acts by login", CONF, {'0 "$project $caller"': '0 "$project $remote_user"'}, front.act_rate, "acts, "),
    ("managers as translators", CONF, {'  1 "$project $caller";\n': "", '  0 "$project $caller"': '  default "$project $caller"'}, front.act_rate, "300 acts"),
    ("acts before the sign-in", SERVER, {"try_files /none @act": "limit_req zone=acts burst=40;\n  try_files /none @act"}, front.passwords, "their owner"),
    ("texts by address", CONF, {'default "$project $caller"': 'default "$project $remote_addr"'}, front.text_rate, "exports, all answered"),
    ("texts of main alone", SERVER, {"/v1/(domains/[^/]+/)?export/": "/v1/export/"}, front.text_rate, "exports of a domain, all answered"),
    ("no rate of questions", SERVER, {"  limit_req zone=questions burst=200 delay=100;\n": ""}, front.question_rate, "questions, all answered"),
    ("any number of guesses", LUA, {"PASSWORDS, MINUTE, HOUR = 120": "PASSWORDS, MINUTE, HOUR = 120000"}, front.passwords, "guesses"),
    ("guesses of all addresses", LUA, {'.. " " .. address()\nend': '.. " "\nend'}, front.passwords, "from elsewhere"),
    ("guesses by login", LUA, {'.. " " .. address()\nend': '.. " " .. (var.remote_user or "")\nend'}, front.passwords, "from elsewhere"),
    ("nobody is known", LUA, {" and not sign_ins:get(password())": ""}, front.passwords, "who was signed in there"),
    ("known anywhere", LUA, {' .. address() .. "\\n"': ""}, front.passwords, "a right password is no better there"),
    ("no refusal costs", LUA, {"[403] = true, [404] = true, [409] = true, [422] = true, ": ""}, front.refusals, "refused acts"),
    ("422 costs nothing", LUA, {"[422] = true, ": ""}, front.refusals, "refused acts"),
    ("a record costs nothing", LUA, {" + ROW": ""}, front.refusals, "small ones"),
    ("refused bytes by address", LUA, {'.. " " .. var.caller': '.. " " .. var.remote_addr'}, front.refusals, "refused acts"),
    ("bytes behind the answer alone", LUA, BY_NGINX_BEHIND, front.refusals, "at once"),
    ("who goes away costs nothing", LUA, {"[499] = true, ": ""}, front.refusals, "goes away"),
    ("what is done costs", LUA, {"not COSTS[ngx.status]": "false"}, front.refusals, "what is done costs nothing"),
    ("acts by address", HAPROXY, {"track-sc1 var(txn.caller) table acts": "track-sc1 src table acts"}, front.act_rate, "acts, all answered"),
    ("managers as translators", HAPROXY, {"act !manages { sc1_http_req_rate(acts)": "act { sc1_http_req_rate(acts)"}, front.act_rate, "300 acts"),
    (
        "acts before the sign-in",
        HAPROXY,
        {"  http-request set-var(txn.signed)": "  http-request track-sc1 http_auth_user,lower table acts if act\n  http-request set-var(txn.signed)"},
        front.passwords,
        "their owner behind them",
    ),
    ("texts by address", HAPROXY, {"track-sc1 var(txn.caller) table texts": "track-sc1 src table texts"}, front.text_rate, "exports, all answered"),
    ("texts of main alone", HAPROXY, {"  acl text path_reg ^/v1/domains/[^/]*/export/\n": ""}, front.text_rate, "exports of a domain, all answered"),
    ("no rate of questions", HAPROXY, {"sc1_http_req_rate(questions) gt 1000": "sc1_http_req_rate(questions) gt 100000"}, front.question_rate, "questions, all"),
    ("any number of guesses", HAPROXY, {"table_gpc0_rate(addresses) ge 120": "table_gpc0_rate(addresses) ge 120000"}, front.passwords, "guesses"),
    ("guesses of all addresses", HAPROXY, {"src,ipmask(32,64)": "src,ipmask(0,0)"}, front.passwords, "from elsewhere"),
    ("guesses by login", HAPROXY, {"src,ipmask(32,64)": "http_auth_user,lower"}, front.passwords, "from elsewhere"),
    ("nobody is known", HAPROXY, {"if guessed !known": "if guessed"}, front.passwords, "who was signed in there"),
    ("known anywhere", HAPROXY, {',concat(" ",txn.address),sha2(256)': ",sha2(256)"}, front.passwords, "a right password is no better there"),
    ("no refusal costs", HAPROXY, {"  http-response track-sc2": "  # http-response track-sc2"}, front.refusals, "refused acts"),
    ("422 costs nothing", HAPROXY, {"status 403 404 409 422": "status 403 404 409"}, front.refusals, "refused acts"),
    ("refused bytes by address", HAPROXY, {"track-sc2 var(txn.caller) table refused": "track-sc2 src table refused"}, front.refusals, "refused acts"),
    ("bytes behind the answer alone", HAPROXY, {"set-var(txn.charged) var(txn.refused),add(txn.waiting)": "set-var(txn.charged) var(txn.refused)"}, front.refusals, "at once"),
    ("what is done costs", HAPROXY, {" { var(txn.act) -m bool } { status 403 404 409 422 }": " { var(txn.act) -m bool }"}, front.refusals, "what is done costs nothing"),
]


def spoilt(folder, file, words):
    """A copy of the fronts' configurations with other words in these places of a file."""
    shutil.copytree(servers.TOP / "share" / "front", folder)
    path = folder / file
    text = path.read_text()
    for old, new in words.items():
        if text.count(old) != 1:
            raise SystemExit(f"{file} has {text.count(old)} times {old!r}")
        text = text.replace(old, new)
    path.write_text(text)


def told_by(case, name, folder):
    """What a case tells of the front with this name, whose configuration is in this folder."""
    servers.FRONT, output, before = folder, io.StringIO(), (looks.count, looks.wrong)
    with tempfile.TemporaryDirectory(prefix="office-front-") as place, front.both_fronts(pathlib.Path(place)) as fronts:
        with contextlib.redirect_stdout(output):
            front.at_front(pathlib.Path(place), [case], *fronts[name])
    looks.count, looks.wrong = before
    return [it for it in output.getvalue().splitlines() if it.startswith(f"{name}: ")]


def main():
    sound, words = {}, sys.argv[1:]
    for what, file, changes, case, saying in SPOILS:
        name = file.partition("/")[0]
        if words and not any(it in f"{name}: {what}" for it in words):
            continue
        with tempfile.TemporaryDirectory() as place:
            spoilt(pathlib.Path(place) / "front", file, changes)
            wrong = [it for it in told_by(case, name, pathlib.Path(place) / "front") if saying in it]
        look(wrong, f"{name}: {what}: nothing tells it")
        print(f"{name}: {what}: {wrong[0][:150] if wrong else 'nothing'}", flush=True)
        sound.setdefault((name, case), []).append(saying)
    for (name, case), sayings in sound.items():
        wrong = told_by(case, name, servers.TOP / "share" / "front")
        for saying in sayings:
            look(not any(saying in it for it in wrong), f"{name}: as it is, {case.__name__}: {wrong}")
    return looks.told()


if __name__ == "__main__":
    sys.exit(main())
