"""What texts are read as: conditions, scopes and schemas with what is expected by hand; texts of extension
values, which the program takes or not."""
import json

from cedar.extensions import stands_for_value
from cedar.tests.shared import make, plain, run

SCHEMA = "entity User, Group, Doc; action view appliesTo { principal: User, resource: Doc };"
P, R, C = '{"var":"principal"}', '{"var":"resource"}', '{"var":"context"}'
CONDITIONS = (
    ("1 + 2 * 3 == 7", '{"==":[{"+":[1,{"*":[2,3]}]},7]}'),
    ("(1 + 2) * 3 == 9", '{"==":[{"*":[{"+":[1,2]},3]},9]}'),
    ("1 - 2 - 3 + 4 < 0", '{"<":[{"+":[{"-":[{"-":[1,2]},3]},4]},0]}'),
    ("1 - (2 - 3) < 0", '{"<":[{"-":[1,{"-":[2,3]}]},0]}'),
    ("2 * 3 * 4 <= 24", '{"<=":[{"*":[{"*":[2,3]},4]},24]}'),
    ("1 > 2", '{"not":{"<=":[1,2]}}'),
    ("1 >= 2", '{"not":{"<":[1,2]}}'),
    ("1 != 2", '{"not":{"==":[1,2]}}'),
    ("true || false && true", '{"any":[true,{"all":[false,true]}]}'),
    ("(true || false) && true", '{"all":[{"any":[true,false]},true]}'),
    ("true && (false && true)", '{"all":[true,{"all":[false,true]}]}'),
    ("true && false && true || false || true", '{"any":[{"all":[true,false,true]},false,true]}'),
    ("true || (false || true)", '{"any":[true,{"any":[false,true]}]}'),
    ("!true == false", '{"==":[{"not":true},false]}'),
    ("!(true == false)", '{"not":{"==":[true,false]}}'),
    ("!!true", '{"not":{"not":true}}'),
    ("!principal.a", '{"not":{"get":[%s,"a"]}}' % P),
    ("!!!!true", '{"not":{"not":{"not":{"not":true}}}}'),
    ("-1 == - 1", '{"==":[-1,-1]}'),
    ("--1 == 1", '{"==":[{"neg":-1},1]}'),
    ("-(1) == 1", '{"==":[{"neg":1},1]}'),
    ("0 - 1 == 0 -1", '{"==":[{"-":[0,1]},{"-":[0,1]}]}'),
    ("1 - -1 == 2", '{"==":[{"-":[1,-1]},2]}'),
    ("-1 * 2 == 1", '{"==":[{"*":[-1,2]},1]}'),
    ("-9223372036854775808 < 9223372036854775807", '{"<":[-9223372036854775808,9223372036854775807]}'),
    ("-principal.a.b < 007", '{"<":[{"neg":{"get":[%s,"a","b"]}},7]}' % P),
    ("1 == -1", '{"==":[1,-1]}'),
    ("principal.a[\"b c\"].principal == 1", '{"==":[{"get":[%s,"a","b c","principal"]},1]}' % P),
    ("principal has a", '{"has":[%s,"a"]}' % P),
    ('principal has "a b"', '{"has":[%s,"a b"]}' % P),
    ('principal has "a.b"', '{"has":[%s,"a.b"]}' % P),
    ("principal.x has a.b.c", '{"all":[{"has":[{"get":[%s,"x"]},"a"]},{"has":[{"get":[%s,"x","a"]},"b"]},{"has":[{"get":[%s,"x","a","b"]},"c"]}]}' % (P, P, P)),
    ("principal has resource", '{"has":[%s,"resource"]}' % P),
    ("principal is User", '{"is":[%s,"User"]}' % P),
    ('principal is N::User in N::Group::"g"', '{"all":[{"is":[%s,"N::User"]},{"in":[%s,{"id":["N::Group","g"]}]}]}' % (P, P)),
    ('principal in [Group::"a", Group::"b",]', '{"in":[%s,[{"id":["Group","a"]},{"id":["Group","b"]}]]}' % P),
    ('principal == User::"a" && resource in principal.docs', '{"all":[{"==":[%s,{"id":["User","a"]}]},{"in":[%s,{"get":[%s,"docs"]}]}]}' % (P, R, P)),
    ('principal::"x" == action', '{"==":[{"id":["principal","x"]},{"var":"action"}]}'),
    ('User :: "a" == principal', '{"==":[{"id":["User","a"]},%s]}' % P),
    ('"a" like "x*\\*\\\\*"', '{"like":["a",["x",null,"*\\\\",null]]}'),
    ('"a" like ""', '{"like":["a",[]]}'),
    ('"a" like "**"', '{"like":["a",[null,null]]}'),
    ('"\\u{1F600}\\x41\\0\\\'\\"\\n\\r\\t\\\\" == "a\nb"', '{"==":["\\ud83d\\ude00A\\u0000\'\\"\\n\\r\\t\\\\","a\\nb"]}'),
    ('"// no comment" == "" // a comment\n', '{"==":["// no comment",""]}'),
    ('"\\u{00_41}" == "A"', '{"==":["A","A"]}'),
    ("if true then 1 == 1 else if false then true else false", '{"if":[true,{"==":[1,1]},false,true,false]}'),
    ("if if true then true else false then true else false", '{"if":[{"if":[true,true,false]},true,false]}'),
    ("if true then if true then true else false else false", '{"if":[true,{"if":[true,true,false]},false]}'),
    ('{a: 1, "b c": [], principal: {},} == {}', '{"==":[{"record":{"a":1,"b c":[],"principal":{"record":{}}}},{"record":{}}]}'),
    ("[1, 2].contains(1)", '{"contains":[[1,2],1]}'),
    ("[].containsAll([1]) || [1].containsAny([],)", '{"any":[{"containsAll":[[],[1]]},{"containsAny":[[1],[]]}]}'),
    ("[1].isEmpty()", '{"isEmpty":[1]}'),
    ('principal.hasTag("a") && principal.getTag("a").b == 1', '{"all":[{"hasTag":[%s,"a"]},{"==":[{"get":[{"getTag":[%s,"a"]},"b"]},1]}]}' % (P, P)),
    ("principal.contains == principal.ip", '{"==":[{"get":[%s,"contains"]},{"get":[%s,"ip"]}]}' % (P, P)),
    ('ip("1.1.1.1").isInRange(ip("1.1.1.0/24"))', '{"call":["isInRange",{"call":["ip","1.1.1.1"]},{"call":["ip","1.1.1.0/24"]}]}'),
    ('decimal("1.0").lessThan(decimal("2.0"),)', '{"call":["lessThan",{"call":["decimal","1.0"]},{"call":["decimal","2.0"]}]}'),
    ('datetime("2024-01-01").offset(duration("1h")).toDate() == context.d',
     '{"==":[{"call":["toDate",{"call":["offset",{"call":["datetime","2024-01-01"]},{"call":["duration","1h"]}]}]},{"get":[%s,"d"]}]}' % C),
    ("ip().isIpv4(1)", '{"call":["isIpv4",{"call":["ip"]},1]}'),
    ("(principal).a == ((1))", '{"==":[{"get":[%s,"a"]},1]}' % P),
    ('User::"a".age == {a: 1}.a', '{"==":[{"get":[{"id":["User","a"]},"age"]},{"get":[{"record":{"a":1}},"a"]}]}'),
    ("(if true then principal else resource).a == 1", '{"==":[{"get":[{"if":[true,%s,%s]},"a"]},1]}' % (P, R)),
)
SCOPES = (
    ("principal, action, resource", "{}"),
    ("principal, action, resource,", "{}"),
    ('principal == User::"a", action == Action::"view", resource in Group::"g"',
     '{"principal":{"==":["User","a"]},"action":{"==":["Action","view"]},"resource":{"in":["Group","g"]}}'),
    ("principal is User, action in [], resource is N::Doc in ?resource", '{"principal":{"is":"User"},"action":{"in":[]},"resource":{"is":"N::Doc","in":"?"}}'),
    ('principal in ?principal, action in Action::"a", resource == ?resource', '{"principal":{"in":"?"},"action":{"in":[["Action","a"]]},"resource":{"==":"?"}}'),
    ('principal is User in Group::"\\"\\u{41}", action in [N::Action::"a", Action::"b",], resource',
     '{"principal":{"is":"User","in":["Group","\\"A"]},"action":{"in":[["N::Action","a"],["Action","b"]]}}'),
)
SCHEMAS = (
    ("", '{"entityTypes":{},"actions":[]}'),
    ("entity A, B in [C]; entity C = {} tags Long;", '{"entityTypes":{"A":{"memberOf":["C"]},"B":{"memberOf":["C"]},"C":{"tags":"Long"}},"actions":[]}'),
    ("entity E enum [\"a\", \"b\",];\nentity A { e: E, \"b c\"?: Set<Set<Long>>, r: { in_: Bool, }, }", None),
    ('entity E enum ["a"]; entity A { e: E, "b c"?: Set<Set<Long>>, r?: { x: Bool, }, };',
     '{"entityTypes":{"E":{"enum":["a"]},"A":{"attributes":{"e":{"entity":"E"},"b c":{"optional":{"set":{"set":"Long"}}},"r":{"optional":{"record":{"x":"Bool"}}}}}},"actions":[]}'),
    ("entity A { a: ipaddr, b: decimal, c: datetime, d: duration, e: __cedar::String, f: __cedar::ipaddr };",
     '{"entityTypes":{"A":{"attributes":{"a":"ipaddr","b":"decimal","c":"datetime","d":"duration","e":"String","f":"ipaddr"}}},"actions":[]}'),
    ("entity Long { a: Long, b: __cedar::Long }; type ipaddr = String; entity B { i: ipaddr };",
     '{"entityTypes":{"Long":{"attributes":{"a":{"entity":"Long"},"b":"Long"}},"B":{"attributes":{"i":"String"}}},"actions":[]}'),
    ("type T = { a?: U }; type U = Set<N::V>; namespace N { type V = W; entity W; entity X in [W, N::W, Y] { t: T }; } entity Y;",
     '{"entityTypes":{"N::W":{},"N::X":{"memberOf":["N::W","Y"],"attributes":{"t":{"record":{"a":{"optional":{"set":{"entity":"N::W"}}}}}}},"Y":{}},"actions":[]}'),
    ('type T = T2; type T2 = {x: Long}; entity U; action a, "b c" in [c, "d", Action::"d"] appliesTo { resource: [U,], principal: U, context: T, }; action c; action d in c;',
     '{"entityTypes":{"U":{}},"actions":[{"id":["Action","a"],"principals":["U"],"resources":["U"],"context":{"x":"Long"},"memberOf":[["Action","c"],["Action","d"]]},'
     '{"id":["Action","b c"],"principals":["U"],"resources":["U"],"context":{"x":"Long"},"memberOf":[["Action","c"],["Action","d"]]},{"id":["Action","c"]},{"id":["Action","d"],"memberOf":[["Action","c"]]}]}'),
    ('entity U; action x; namespace N { action y in [z, x]; action z in Action::"x" appliesTo { principal: [], resource: [] }; }',
     '{"entityTypes":{"U":{}},"actions":[{"id":["Action","x"]},{"id":["N::Action","y"],"memberOf":[["N::Action","z"],["Action","x"]]},{"id":["N::Action","z"],"principals":[],"resources":[],"memberOf":[["Action","x"]]}]}'),
    ('{"N": {"commonTypes": {"T": {"type": "Record", "attributes": {"a": {"type": "Entity", "name": "U"}, "b": {"type": "Bool", "required": false}}}}, "entityTypes": {"U": {"shape": {"type": "T"}, "tags": {"type": "EntityOrCommon", "name": "N::T"}, "annotations": {"doc": ""}}}, "actions": {"a": {"memberOf": null, "appliesTo": null}}}}',
     '{"entityTypes":{"N::U":{"attributes":{"a":{"entity":"N::U"},"b":{"optional":"Bool"}},"tags":{"record":{"a":{"entity":"N::U"},"b":{"optional":"Bool"}}}}},"actions":[{"id":["N::Action","a"]}]}'),
)
VALUES = {
    "decimal": "1.0 -0.5 00.10 922337203685477.5807 922337203685477.5808 -922337203685477.5808 1.12345 1. 0000000000000000000000000000001.5 -.5 1.2.3 +1.0 99999999999999999999.1",
    "ip": "10.0.0.1 10.0.0.0/8 ::1 ::1/64 1:2:3:4:5:6:7:8 2001:DB8::/32 :: 1:: ::ffff:1.2.3.4 256.1.1.1 01.1.1.1 1.1.1.1/33 1.1.1.1/032 1:2:3:4:5:6:7:: ::2:3:4:5:6:7:8 1:2:3:4:5:6:7:8:: 1::2::3 12345:: 1.2.3 ::/129 ::/128 1.1.1.1/ 1.1.1.1/0 ::: :1:2:3:4:5:6:7",
    "datetime": "2024-10-15 2024-10-15T11:35:00Z 2024-10-15T11:35:00.123+0100 0000-02-29 0000-02-30 1900-02-29 9999-12-31T23:59:59.999-2359 9999-12-31T23:59:59.999+2360 2024-10-15T24:00:00Z 2024-10-15T23:60:00Z 2024-10-15T23:59:60Z 2024-10-15T23:59:59 2024-1-15 2024-10-15T11:35:00.1Z 2024-10-15Z 10000-01-01 2024-13-01",
    "duration": "1d 1d2h3m4s5ms -1h 0s 5ms 106751991167d 106751991168d -106751991167d7h12m55s808ms -106751991167d7h12m55s809ms 1h1d 1m1m ms - 1 1m2ms 9223372036854775808ms -9223372036854775808ms 00001d 1D",
}


def conditions():
    for text, expected in CONDITIONS:
        yield f"permit (principal, action, resource) when {{ {text} }};", {"body": [{"when": json.loads(expected)}]}
    for text, expected in SCOPES:
        yield f"permit ({text});", json.loads(expected)


def test(program):
    wrong, count = [], 0
    for text, expected in conditions():
        count += 1
        made = make({"schema": SCHEMA, "policies": text})
        if made.lines or plain(made.document["policies"]) != [{"id": "policy0", "effect": "permit", **expected}]:
            wrong.append(f"{text}: {made.lines} {plain(made.document['policies'])}")
    for text, expected in SCHEMAS:
        count += 1
        made = make({"schema": text})
        refused = any("refused" in line for line in made.lines)
        if refused != (expected is None) or expected and made.document["schema"] != json.loads(expected):
            wrong.append(f"{text}: {made.lines} {json.dumps(made.document)}")
    for function, texts in VALUES.items():
        for text in texts.split():
            count += 1
            document = {"schema": {"entityTypes": {"U": {}}}, "entities": [{"id": ["U", "a"], "attrs": {"x": {function: text}}}]}
            if (run(program, ["request"], json.dumps(document).encode())[0] != 3) != stands_for_value(function, text):
                wrong.append(f"{function} {text}: the program and extensions.py differ")
    return count, wrong
