"""Tests of the package, as it is installed. What is expected is worked out by hand."""
import threading
import unittest

from palvumiose import Decision, NotAccepted, Policies, Refused

SCHEMA = {
    "entityTypes": {"Group": {}, "User": {"memberOf": ["Group"], "attributes": {"age": {"optional": "Long"}}}, "Film": {}},
    "actions": [{"id": ["Action", "watch"], "principals": ["User"], "resources": ["Film"]}],
}
WATCH = {"id": ["Action", "watch"], "parents": [], "attrs": {}}
ADULTS = {
    "id": "adults",
    "effect": "permit",
    "body": [{"when": {"all": [{"has": [{"var": "principal"}, "age"]}, {"<=": [18, {"get": [{"var": "principal"}, "age"]}]}]}}],
}
BANNED = {"id": "banned", "effect": "forbid", "principal": {"in": ["Group", "banned"]}}


def user(name, age, *groups):
    return {"id": ["User", name], "attrs": {} if age is None else {"age": age}, "parents": [["Group", group] for group in groups]}


def request(name):
    return {"principal": ["User", name], "action": ["Action", "watch"], "resource": ["Film", "f"], "context": {}}


def entities(*users):
    return [WATCH, {"id": ["Film", "f"], "attrs": {}, "parents": []}, {"id": ["Group", "banned"], "attrs": {}, "parents": []}, *users]


class Decisions(unittest.TestCase):
    def setUp(self):
        self.policies = Policies(SCHEMA, [ADULTS, BANNED])

    def test_allow_and_deny(self):
        store = entities(user("ann", 30), user("bob", 12), user("cid", 40, "banned"))
        self.assertEqual(self.policies.decide(request("ann"), store), Decision(True, ["adults"], []))
        self.assertEqual(self.policies.decide(request("bob"), store), Decision(False, [], []))
        self.assertEqual(self.policies.decide(request("cid"), store), Decision(False, ["banned"], []))

    def test_only_allow_is_true(self):
        store = entities(user("ann", 30), user("bob", 12))
        self.assertTrue(self.policies.decide(request("ann"), store))
        self.assertFalse(self.policies.decide(request("bob"), store))

    def test_slice(self):
        answer = self.policies.slice(request("ann"), entities(user("ann", 30), user("bob", 12)))
        self.assertTrue(answer.decision)
        self.assertIn({"id": ["User", "ann"], "attrs": {"age": 30}, "ancestors": [], "tags": {}}, answer.entities)
        self.assertNotIn(["User", "bob"], [entity["id"] for entity in answer.entities])

    def test_many(self):
        store = entities(user("ann", 30), user("bob", 12))
        wrong = {**request("ann"), "resource": ["Group", "banned"]}
        allowed, denied, refused = self.policies.decide_many([request("ann"), request("bob"), wrong], store)
        self.assertEqual((allowed.allowed, denied.allowed), (True, False))
        self.assertIsInstance(refused, Refused)
        self.assertFalse(refused)

    def test_of_documents(self):
        document = '{"schema":{"entityTypes":{"User":{}},"actions":[]},"entities":[]}'
        self.assertEqual(Policies.from_document(document).findings, "errors 0, warnings 0\n")

    def test_threads(self):
        store, seen = entities(user("ann", 30), user("bob", 12)), []
        def ask():
            for _ in range(50):
                seen.append((bool(self.policies.decide(request("ann"), store)), bool(self.policies.decide(request("bob"), store))))
        threads = [threading.Thread(target=ask) for _ in range(4)]
        for thread in threads:
            thread.start()
        for thread in threads:
            thread.join()
        self.assertEqual(seen, [(True, False)] * 200)


class NoDecisions(unittest.TestCase):
    def setUp(self):
        self.policies = Policies(SCHEMA, [ADULTS])

    def refused(self, status, asked, store):
        with self.assertRaises(Refused) as seen:
            self.policies.decide(asked, store)
        self.assertEqual(seen.exception.status, status)
        return seen.exception.text

    def test_policies_that_are_not_accepted(self):
        unguarded = {**ADULTS, "body": [{"when": {"<=": [18, {"get": [{"var": "principal"}, "age"]}]}}]}
        with self.assertRaises(NotAccepted) as seen:
            Policies(SCHEMA, [unguarded])
        self.assertIn("error UnsafeOptionalAttributeAccess", seen.exception.text)

    def test_requests(self):
        store = entities(user("ann", 30))
        self.assertTrue(self.refused(4, {**request("ann"), "principal": ["Film", "f"]}, store).startswith("request: "))
        self.refused(6, {**request("ann"), "principal": None}, store)
        self.refused(6, {"principal": ["User", "ann"]}, store)

    def test_entities(self):
        self.assertTrue(self.refused(5, request("ann"), entities(user("ann", "thirty"))).startswith('entity: User::"ann": '))
        self.refused(3, request("ann"), entities(user("ann", 1.5)))
        self.refused(3, request("ann"), entities(user("ann", 30), user("ann", 12)))

    def test_what_is_no_list_is_no_empty_one(self):
        for wrong in None, {}, "", 0, False, {"id": ["User", "ann"]}:
            with self.assertRaises(TypeError, msg=repr(wrong)):
                self.policies.decide(request("ann"), wrong)
            with self.assertRaises(TypeError, msg=repr(wrong)):
                Policies(SCHEMA, wrong)

    def test_what_is_no_document(self):
        forbids = {"schema": SCHEMA, "policies": [ADULTS], "forbids": [BANNED]}
        for wrong in forbids, {"policies": []}, {"schema": SCHEMA, "policies": None}, [], "[]":
            with self.assertRaises(TypeError, msg=repr(wrong)):
                Policies.from_document(wrong)

    def test_what_is_no_request(self):
        for wrong in None, [], "ann", [request("ann")]:
            with self.assertRaises(TypeError, msg=repr(wrong)):
                self.policies.decide(wrong, entities(user("ann", 30)))

    def test_what_json_has_not(self):
        with self.assertRaises(TypeError):
            self.policies.decide({**request("ann"), "context": {1: True}}, entities(user("ann", 30)))
        with self.assertRaises(ValueError):
            self.policies.decide(request("ann"), entities(user("ann", float("nan"))))


if __name__ == "__main__":
    unittest.main()
