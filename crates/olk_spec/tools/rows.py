#!/usr/bin/env python3
"""Writes the worked rows and vectors as facts that the checker computes.

Run it in the crate's folder: `python3 tools/rows.py`, and then `rt fmt`. It writes specs/Rows_*.antt
and specs/Vectors_*.antt, their proofs, and nothing else. Each row is a schema and a
value as JSON texts, a name that says what the row shows, and what is expected.
"""
import json
import re

FORMS = {
    "Holds": "λ u. (refl, refl, refl)",
    "Fails": "λ u. (refl, refl, refl)",
    "Refuses": "λ u. (refl, refl, refl)",
    "Holds_under": "(refl, refl, refl)",
    "Fails_under": "(refl, refl, refl)",
    "Is_about": "λ u. refl",
    "Cuts_to": "λ u. refl",
    "Asks": "(refl, refl)",
    "Evaluates": "λ u. refl",
    "Has_nodes": "λ u. refl",
    "Costs": "(refl, refl, refl, refl)",
    "Is_refused": "refl",
    "Builds": "refl",
    "Are_refused_at": "refl",
    "Is_pattern": "refl",
    "Is_no_pattern": "refl",
}

# those of specs/Forms.antt
MORE_FORMS = {
    "Has_tree": "λ u. refl",
    "Tells": "λ u. refl",
    "Is_refused_as": "refl",
    "Is_always_refused": "λ W. refl",
    "Promises_its_text": "λ u. refl",
    "Promises_no_text": "λ u. refl",
    "Promises_its_refusal": "refl",
    "All_promise_their_texts": "λ u. refl",
    "All_promise_their_refusals": "refl",
    "None_promises_its_refusal": "refl",
    "Has_keywords": "λ u. refl",
    "Keeps": "λ u. refl",
    "Leaf_is_refused_as": "refl",
    "All_build": "refl",
    "Says_of": "(refl, refl)",
    "Are_white_space": "refl",
    "Are_no_white_space": "refl",
}
PROOFS = {**FORMS, **MORE_FORMS}


def as_bytes(text):
    """A text with a character for each byte, as `codes` reads it."""
    return text.encode().decode("latin-1")


def quote(text):
    """A text in antt's quotes."""
    text = as_bytes(text).replace("\\", "\\\\").replace('"', '\\"').replace("\n", "\\n")
    return f'"{text}"'


def texts(items):
    return "(" + " ∷ ".join([quote(i) for i in items] + ["[]"]) + ")" if items else "[]"


def ordered(items):
    return sorted(items, key=lambda t: t.encode())


def listed(words):
    return "(" + " ∷ ".join([*words, "[]"]) + ")"


class Group:
    """One file of rows: named schemas, and facts about them."""

    def __init__(self, module, title):
        self.module, self.title = module, title
        self.schemas, self.tables, self.rows = {}, {}, []

    def schema(self, name, value):
        text = value if isinstance(value, str) else compact(value)
        json.loads(text)
        assert name not in self.schemas, name
        self.schemas[name] = text
        return name

    def table(self, name, rows):
        """Schemas, with what is wrong with each and at which path."""
        for schema, _, _ in rows:
            json.loads(schema)
        self.tables[name] = rows
        return name

    def add(self, name, form, *words):
        assert form in PROOFS
        assert name[0].islower() and all(name != row[0] for row in self.rows), name
        self.rows.append((name, form, " ".join(words)))

    def text_of(self, schema):
        return schema if isinstance(schema, str) and schema in self.schemas else quoted_json(schema)

    # ---- the kinds of facts

    def holds(self, name, schema, value):
        self.add(name, "Holds", self.text_of(schema), quoted_json(value))

    def fails(self, name, schema, value, lines):
        self.add(name, "Fails", self.text_of(schema), quoted_json(value), texts(ordered(lines)))

    def refuses(self, name, schema, value):
        self.add(name, "Refuses", self.text_of(schema), quoted_json(value))

    def holds_under(self, name, answer, schema, value):
        self.add(name, "Holds_under", answer, self.text_of(schema), quoted_json(value))

    def fails_under(self, name, answer, schema, value, lines):
        self.add(name, "Fails_under", answer, self.text_of(schema), quoted_json(value), texts(ordered(lines)))

    def is_about(self, name, schema, value, instances):
        self.add(name, "Is_about", self.text_of(schema), quoted_json(value), texts(instances))

    def cuts_to(self, name, schema, value, lines):
        self.add(name, "Cuts_to", self.text_of(schema), quoted_json(value), texts(ordered(lines)))

    def asks(self, name, schema, value, count):
        self.add(name, "Asks", self.text_of(schema), quoted_json(value), str(count))

    def costs(self, name, schema, compiled, leaves, made, asked):
        self.add(name, "Costs", self.text_of(schema), *map(str, (compiled, leaves, made, asked)))

    def is_refused(self, name, schema, lines):
        self.add(name, "Is_refused", self.text_of(schema), texts(ordered(lines)))

    def are_refused_at(self, name, path, place, table):
        before, after = place.split("%s")
        self.add(name, "Are_refused_at", quote(path), quote(before), quote(after), table)

    def builds(self, name, schema):
        self.add(name, "Builds", self.text_of(schema))

    def evaluates(self, name, schema, value, answer):
        self.add(name, "Evaluates", self.text_of(schema), quoted_json(value), quoted_json(answer))

    def has_nodes(self, name, schema, value, nodes):
        self.add(name, "Has_nodes", self.text_of(schema), quoted_json(value), quote(nodes))

    def is_pattern(self, name, pattern, literal):
        self.add(name, "Is_pattern", quote(pattern), "(" + literal + ")")

    def is_no_pattern(self, name, pattern):
        self.add(name, "Is_no_pattern", quote(pattern))

    def has_tree(self, name, schema, value, tree):
        self.add(name, "Has_tree", self.text_of(schema), quoted_json(value), quote(tree))

    def tells(self, name, schema, value, lines):
        self.add(name, "Tells", self.text_of(schema), quoted_json(value), texts(ordered(lines)))

    def is_refused_as(self, name, schema, lines):
        self.add(name, "Is_refused_as", self.text_of(schema), texts(ordered(lines)))

    def is_always_refused(self, name, schema, lines):
        self.add(name, "Is_always_refused", self.text_of(schema), texts(ordered(lines)))

    def promises(self, name, schema, value, yes):
        self.add(name, "Promises_its_text" if yes else "Promises_no_text", self.text_of(schema), quoted_json(value))

    def promises_its_refusal(self, name, schema):
        self.add(name, "Promises_its_refusal", self.text_of(schema))

    def all_promise(self, name, pairs):
        self.add(name, "All_promise_their_texts", listed(f"({self.text_of(s)}, {quoted_json(v)})" for s, v in pairs))

    def all_promise_their_refusals(self, name, schemas, yes):
        self.add(name, "All_promise_their_refusals" if yes else "None_promises_its_refusal", listed(map(self.text_of, schemas)))

    def all_build(self, name, schemas):
        self.add(name, "All_build", listed(map(self.text_of, schemas)))

    def has_keywords(self, name, schema, value, keywords):
        self.add(name, "Has_keywords", self.text_of(schema), quoted_json(value), texts(ordered(keywords)))

    def keeps(self, name, schema, value, lines):
        self.add(name, "Keeps", self.text_of(schema), quoted_json(value), texts(ordered(lines)))

    def leaf_is_refused_as(self, name, keyword, value, text):
        self.add(name, "Leaf_is_refused_as", quote(keyword), quoted_json(value), quote(text))

    def says_of(self, name, pattern, member, matcher, answer):
        self.add(name, "Says_of", quote(pattern), quote(member), matcher, answer)

    def are_white_space(self, name, yes, characters):
        self.add(name, "Are_white_space" if yes else "Are_no_white_space", "(" + " ∷ ".join("0x%x" % c for c in characters) + " ∷ [])")

    # ---- what is written

    def write(self):
        record = self.module  # the module and the record of its rows have one name
        body = "".join(f"\nabbrev pub {n} : Quoted\n{n} = {quote(t)}\n" for n, t in self.schemas.items())
        for name, rows in self.tables.items():
            lines = "".join(f"    ({', '.join(map(quote, row))}) ∷\n" for row in rows)
            body += f"\n-- schemas, what each is refused for, and at which path below its own\nabbrev pub {name} : List (Quoted × Quoted × Quoted)\n{name} =\n{lines}    []\n"
        body += f"\npub record {record} : Type 0 where\n" + "".join(f"  pub {n} : {f} {w}\n" for n, f, w in self.rows)
        code = re.sub(r'"(\\.|[^"\\])*"', '""', body)
        words = set(re.findall(r"[\w◌∷]+", code)) | set(re.findall(r"\[\]|∷|×", code))
        prelude = [w for w in ("List", "[]", "true", "false", "codes") if w in words]
        if "∷" in code:
            prelude.insert(0, "◌∷◌")
        literals = [w for w in ("starts_with_text", "ends_with_text", "equals_text", "is_one_of", "has_no_whitespace") if w in words]
        head = f"-- {self.title}\n"
        if prelude:
            head += f"use Rattle.std.specs.Prelude.{{{', '.join(prelude)}}}\n"
        if self.schemas or self.tables:
            head += "use Prim.Native.String.{String as Quoted}\n"
        if literals:
            head += f"use Rattle.olk_spec.specs.Literals.{{{', '.join(literals)}}}\n"
        says = [w for w in ("matched", "unmatched", "unfinished") if w in words]
        if says:
            head += f"use Rattle.olk_spec.specs.World.{{{', '.join(says)}}}\n"
        for module, here in (("Answers", [f for f in FORMS if f in words]), ("Forms", [f for f in MORE_FORMS if f in words])):
            if here:
                head += f"use Rattle.olk_spec.specs.{module}.{{{', '.join(here)}}}\n"
        with open(f"specs/{self.module}.antt", "w") as out:
            out.write(head + body)

        fact = record.lower()
        proof = (
            "use Rattle.std.proofs.Common.{refl}\n"
            "use Rattle.olk_spec.proofs.Computed.{computed}\n"
            f"use Rattle.olk_spec.specs.{record}.{{{record}}}\n"
        )
        facts = "".join(f"  {name} = {PROOFS[form]};\n" for name, form, _ in self.rows)
        proof += f"\npub {fact} : {record}\nunfolding computed\n{fact} = record {{\n{facts}}}\n"
        with open(f"proofs/{self.module}.antt", "w") as out:
            out.write(proof)
        print(self.module, len(self.rows))


def compact(value):
    return json.dumps(value, separators=(",", ":"))


def quoted_json(value):
    """A JSON text, given as itself or as the value that it stands for."""
    text = value if isinstance(value, str) else compact(value)
    json.loads(text)
    return quote(text)


# ---- properties, required, additionalProperties


def properties():
    g = Group("Rows_properties", "Declared, required and additional members.")
    two = g.schema("two_required", '{"properties":{"a":{"type":"integer"},"b":{"type":"string"}},"required":["a","b"]}')
    g.holds("extra_members_are_accepted", two, '{"a":1,"b":"x","c":3}')
    g.fails("missing_and_wrong_are_both_told", two, '{"a":"x"}',
            ['"b" is a required property @ "", /required', '"x" is not of type "integer" @ /a, /properties/a/type'])
    g.fails("a_wrong_member_alone_is_told", two, '{"a":"x","b":"y"}', ['"x" is not of type "integer" @ /a, /properties/a/type'])
    g.holds("names_that_differ_early_are_told_apart", '{"properties":{"abcdEFGHijkl":false,"p":true}}', '{"abcdefghijkl":1,"p":1}')
    g.fails("names_that_differ_in_the_middle_are_told_apart",
            {"properties": {"prefix%04dsuffix00" % n: {"const": n} for n in range(14)}, "additionalProperties": False},
            '{"prefix0099suffix00":0}',
            ["Additional properties are not allowed ('prefix0099suffix00' was unexpected) @ \"\", /additionalProperties"])
    near = g.schema("near_names", '{"properties":{"prefix0003suffix00":false,"prefix0004suffix00":true}}')
    g.holds("a_near_name_is_not_refused", near, '{"prefix0004suffix00":0}')
    g.fails("a_false_schema_refuses_its_name", near, '{"prefix0003suffix00":0}',
            ["False schema does not allow 0 @ /prefix0003suffix00, /properties/prefix0003suffix00"])
    twice = g.schema("required_twice", '{"properties":{"a":{}},"required":["a","a"]}')
    g.holds("a_name_required_twice_is_met_once", twice, '{"a":1}')
    g.fails("a_name_required_twice_is_missing_twice", twice, "{}", ['"a" is a required property @ "", /required'] * 2)
    other = g.schema("undeclared_required", '{"properties":{"a":{}},"additionalProperties":false,"required":["z"]}')
    g.fails("a_required_name_may_be_unexpected", other, '{"z":1}',
            ["Additional properties are not allowed ('z' was unexpected) @ \"\", /additionalProperties"])
    g.fails("a_required_undeclared_name_is_missing", other, "{}", ['"z" is a required property @ "", /required'])
    g.fails("unexpected_and_missing_are_both_told", '{"properties":{"a":{}},"additionalProperties":false,"required":["a"]}', '{"b":1}',
            ["Additional properties are not allowed ('b' was unexpected) @ \"\", /additionalProperties", '"a" is a required property @ "", /required'])
    g.fails("a_required_undeclared_name_may_be_present", '{"properties":{"a":{"type":"integer"},"b":{}},"required":["a","z"]}', '{"z":2,"y":3}',
            ['"a" is a required property @ "", /required'])
    g.fails("no_declared_names_are_still_declared", '{"properties":{},"additionalProperties":false}', '{"x":1}',
            ["Additional properties are not allowed ('x' was unexpected) @ \"\", /additionalProperties"])
    g.fails("alone_it_is_a_false_schema_over_the_first_member", '{"additionalProperties":false}', '{"x":1}',
            ['False schema does not allow 1 @ "", /additionalProperties'])
    g.is_about("alone_its_instance_is_the_first_value", '{"additionalProperties":false}', '{"y":2,"x":1}', ["1"])
    g.fails("additional_members_meet_their_schema", '{"additionalProperties":{"type":"integer"},"properties":{"foo":{}}}', '{"foo":"x","bar":"a"}',
            ['"a" is not of type "integer" @ /bar, /additionalProperties/type'])
    for name, inner, value, line in (
        ("an_unexpected_member_is_told_at_its_object", '{"properties":{},"additionalProperties":false}', '{"b":1}',
         "Additional properties are not allowed ('b' was unexpected) @ /a, /properties/a/additionalProperties"),
        ("a_missing_member_is_told_at_its_object", '{"required":["b"]}', "{}", '"b" is a required property @ /a, /properties/a/required'),
    ):
        g.fails(name, '{"properties":{"a":%s}}' % inner, '{"a":%s}' % value, [line])
    g.fails("in_a_branch_an_unexpected_member_is_told_of_the_branch", '{"allOf":[{"properties":{},"additionalProperties":false}]}', '{"b":1}',
            ["Additional properties are not allowed ('b' was unexpected) @ \"\", /allOf/0/additionalProperties"])
    five = g.schema("five_arrays", {"additionalProperties": False, "required": ["id"],
                                    "properties": {"id": {"type": "integer"}, **{k: {"type": "array"} for k in "abcde"}}})
    g.fails("a_fifth_container_is_asked", five, '{"a":[],"b":[],"c":[],"d":[],"e":{},"id":1}', ['{} is not of type "array" @ /e, /properties/e/type'])
    g.holds("five_containers_are_accepted", five, '{"a":[],"b":[],"c":[],"d":[],"e":[],"id":1}')
    for n in (14, 15, 16):
        last = "p%02d" % (n - 1)
        many = g.schema("names_%d" % n, {"properties": {"p%02d" % i: {"type": "integer"} for i in range(n)}})
        error = ['"x" is not of type "integer" @ /%s, /properties/%s/type' % (last, last)]
        g.fails("the_last_of_%d_names_is_asked" % n, many, {"p%02d" % i: ("x" if i == n - 1 else 1) for i in range(20)}, error)
        g.fails("the_last_of_%d_names_is_asked_alone" % n, many, {last: "x"}, error)
    g.fails("paths_are_escaped", '{"properties":{"a/b":false}}', '{"a/b":1}', ["False schema does not allow 1 @ /a~1b, /properties/a~1b"])
    g.fails("a_name_beyond_ascii_stands_as_it_is_in_paths", {"properties": {"é": False}}, {"é": 1}, ["False schema does not allow 1 @ /é, /properties/é"])
    g.fails("quotes_and_percents_stand_as_they_are_in_paths", {"properties": {'"': False, "%": False}}, {'"': 1, "%": 2},
            ['False schema does not allow 1 @ /", /properties/"', "False schema does not allow 2 @ /%, /properties/%"])
    g.fails("a_missing_name_is_told_as_json", {"required": ['a"b\n']}, "{}", ['"a\\"b\\n" is a required property @ "", /required'])
    none_more = '{"properties":{},"additionalProperties":false}'
    g.fails("three_unexpected_names_are_told_as_they_are", none_more, {"a": 1, "b'\"": 2, "c": 3},
            ["Additional properties are not allowed ('a', 'b'\"', 'c' were unexpected) @ \"\", /additionalProperties"])
    for value in ("null", "false"):
        g.fails(f"a_member_that_is_{value}_is_there", '{"required":["a"],"dependentRequired":{"a":["b"]}}', '{"a":%s}' % value, ['"b" is a required property @ "", /dependentRequired'])
    g.fails("members_that_are_null_are_declared_and_unexpected", '{"properties":{"a":false},"additionalProperties":false}', '{"a":null,"b":null}',
            ["False schema does not allow null @ /a, /properties/a", "Additional properties are not allowed ('b' was unexpected) @ \"\", /additionalProperties"])
    g.fails("what_other_keywords_and_branches_name_is_additional", '{"allOf":[{"properties":{"a":{}}}],"dependentSchemas":{"b":{}},"properties":{},"additionalProperties":false}', '{"a":1,"b":2}',
            ["Additional properties are not allowed ('a', 'b' were unexpected) @ \"\", /additionalProperties"])
    g.fails("in_an_open_object_a_declared_name_meets_its_patterns", '{"properties":{"a":{}},"patternProperties":{"^a":false}}', '{"a":1}', ["False schema does not allow 1 @ /a, /patternProperties/^a"])
    g.holds("other_values_pass", '{"properties":{"a":false},"required":["a"],"additionalProperties":false,"patternProperties":{"":false},"propertyNames":false,"dependentRequired":{"a":["b"]},"dependentSchemas":{"a":false},"dependencies":{"a":false},"propertyDependencies":{"a":{"b":false}}}', "[1]")
    return g


# ---- patternProperties


def patterns():
    g = Group("Rows_patterns", "Patterns: those with a test of their own, those that the matcher answers, and those that it leaves unfinished.")
    both = g.schema("closed", CLOSED)
    g.fails("all_four_faults_are_told", both, '{"bar":4,"spam":11,"foo":3,"faz":1}',
            ["Additional properties are not allowed ('faz' was unexpected) @ \"\", /additionalProperties",
             "4 is less than the minimum of 5 @ /bar, /patternProperties/^bar/minimum",
             '3 is not of type "string" @ /foo, /properties/foo/type',
             "11 is greater than the maximum of 10 @ /spam, /patternProperties/spam$/maximum"])
    g.fails("a_declared_name_meets_its_patterns_too", both, '{"barbaz":3}', ["3 is less than the minimum of 5 @ /barbaz, /patternProperties/^bar/minimum"])
    g.fails("all_unexpected_names_are_told", both, '{"faz":1,"haz":1}',
            ["Additional properties are not allowed ('faz', 'haz' were unexpected) @ \"\", /additionalProperties"])
    g.cuts_to("the_first_unexpected_name_is_kept", both, '{"faz":1,"haz":1}',
              ["Additional properties are not allowed ('faz' was unexpected) @ \"\", /additionalProperties"])
    slow = g.schema("slow_declared", '{"properties":{"ax":{}},"patternProperties":{"(slow)x":{"type":"integer"}},"additionalProperties":false}')
    g.fails_under("an_unfinished_match_that_counts", "true", slow, '{"ax":"t"}', ['"t" is not of type "integer" @ /ax, /patternProperties/(slow)x/type'])
    g.holds_under("an_unfinished_match_that_does_not_count", "false", slow, '{"ax":"t"}')
    wild = g.schema("slow_alone", '{"patternProperties":{"(slow)x":{"type":"integer"}}}')
    g.fails_under("alone_an_unfinished_match_counts", "true", wild, '{"ax":"t","b":"t"}', ['"t" is not of type "integer" @ /ax, /patternProperties/(slow)x/type'])
    g.holds_under("alone_an_unfinished_match_does_not_count", "false", wild, '{"ax":"t","b":"t"}')
    g.fails("a_finished_match_counts_under_both", '{"patternProperties":{"x":{"type":"integer"}}}', '{"ax":"t","b":"t"}',
            ['"t" is not of type "integer" @ /ax, /patternProperties/x/type'])
    blank = g.schema("no_whitespace", '{"patternProperties":{"^\\\\S*$":false}}')
    g.holds("a_space_is_white_space", blank, '{"a b":1}')
    g.holds("a_byte_order_mark_is_white_space", blank, '{"a\\ufeffb":1}')
    g.fails("a_name_without_white_space_matches", blank, '{"ab":1}', ["False schema does not allow 1 @ /ab, /patternProperties/^\\S*$"])
    g.fails("a_name_is_additional_if_nothing_holds_or_matches_it", '{"properties":{"foo":{}},"patternProperties":{"^bar":{}},"additionalProperties":false}', '{"foo":1,"barn":2,"faz":3}',
            ["Additional properties are not allowed ('faz' was unexpected) @ \"\", /additionalProperties"])
    g.fails("a_suffix_stands_at_the_end", '{"patternProperties":{"spam$":false}}', '{"xspam":1,"spamx":2}', ["False schema does not allow 1 @ /xspam, /patternProperties/spam$"])
    g.refuses("next_line_is_no_white_space", blank, '{"\\u0085":1}')
    g.holds("a_line_separator_is_white_space", blank, '{"\\u2028":1}')
    g.are_white_space("the_first_and_last_of_each_run_are_white_space", True, (0x9, 0xD, 0x20, 0xA0, 0x1680, 0x2000, 0x200A, 0x2028, 0x2029, 0x202F, 0x205F, 0x3000, 0xFEFF))
    g.are_white_space("all_25_characters_are_white_space", True, (*range(0x9, 0xE), 0x20, 0xA0, 0x1680, *range(0x2000, 0x200B), 0x2028, 0x2029, 0x202F, 0x205F, 0x3000, 0xFEFF))
    g.are_white_space("their_neighbours_are_no_white_space", False,
                      (0x8, 0xE, 0x1F, 0x21, 0x85, 0x9F, 0xA1, 0x167F, 0x1681, 0x180E, 0x1FFF, 0x200B, 0x2027, 0x202A, 0x202E, 0x2030, 0x205E, 0x2060, 0x2FFF, 0x3001, 0xFEFE, 0xFF00))
    g.holds("an_exact_name_is_no_prefix", '{"patternProperties":{"^a$":false}}', '{"ab":1}')
    g.holds("alternatives_are_no_prefixes", '{"patternProperties":{"^(a|b)$":false}}', '{"ab":1}')
    g.fails("the_third_alternative_matches", '{"patternProperties":{"^(a|b|c)$":false}}', '{"c":1}', ["False schema does not allow 1 @ /c, /patternProperties/^(a|b|c)$"])
    once = g.schema("slow_false", '{"patternProperties":{"(slow)a":false}}')
    for name, member in (("an_unfinished_match_of_the_text_itself_counts", "a"), ("an_unfinished_match_inside_a_name_counts", "ba")):
        g.fails_under(name, "true", once, {member: 1}, ["False schema does not allow 1 @ /%s, /patternProperties/(slow)a" % member])
    slow_shut = g.schema("slow_closed", '{"patternProperties":{"(slow)x":{}},"additionalProperties":false}')
    g.holds_under("a_name_is_not_additional_if_an_unfinished_match_counts", "true", slow_shut, '{"x":1}')
    g.fails_under("a_name_is_additional_if_an_unfinished_match_does_not_count", "false", slow_shut, '{"x":1}',
                  ["Additional properties are not allowed ('x' was unexpected) @ \"\", /additionalProperties"])
    g.holds("two_patterns_are_both_asked", '{"patternProperties":{"^x":{},"spam$":{"type":"integer"}}}', '{"x1":"t"}')
    shut = g.schema("closed_suffix", '{"properties":{"a":{},"bspam":{}},"patternProperties":{"spam$":{}},"additionalProperties":false}')
    g.holds("declared_and_matching_names_are_expected", shut, '{"a":1,"bspam":2}')
    g.holds("a_matching_name_is_expected", shut, '{"a":1,"xspam":1}')
    names = {"m%02d" % i: {} for i in range(65)}
    wide = g.schema("patterns_65", {"additionalProperties": False, "properties": {"m64": {}}, "patternProperties": names})
    wider = g.schema("patterns_66", {"additionalProperties": False, "properties": {"m64": {}}, "patternProperties": {"(slow)m64": False, **names}})
    g.holds("the_last_of_65_patterns_matches", wide, '{"m64":1}')
    g.holds_under("the_first_of_66_patterns_does_not_count", "false", wider, '{"m64":1}')
    g.fails_under("the_first_of_66_patterns_counts", "true", wider, '{"m64":1}', ["False schema does not allow 1 @ /m64, /patternProperties/(slow)m64"])

    g.fails("a_name_that_a_false_schema_refuses_is_not_additional", '{"patternProperties":{"^a":false},"additionalProperties":false}', '{"a":1}',
            ["False schema does not allow 1 @ /a, /patternProperties/^a"])
    g.holds("the_case_of_letters_counts", '{"patternProperties":{"^foo":false,"foo$":false,"^foo$":false,"^(foo|bar)$":false}}', '{"Foo":1}')
    g.holds("the_end_is_behind_a_line_feed", '{"patternProperties":{"spam$":false,"^spam$":false,"^(spam|a)$":false}}', {"spam\n": 1})

    def prefix(t):
        return f"starts_with_text (codes {quote(t)})"

    for n, p, l in (
        ("prefix_of_letters", "^foo", prefix("foo")),
        ("prefix_with_a_hyphen", "^x-", prefix("x-")),
        ("prefix_with_a_slash", "^path/to", prefix("path/to")),
        ("prefix_with_an_escaped_slash", "^\\/", prefix("/")),
        ("exact_letters", "^foo$", f"equals_text (codes {quote('foo')})"),
        ("exact_with_an_escaped_dollar", "^\\$ref$", f"equals_text (codes {quote('$ref')})"),
        ("prefix_that_ends_in_a_dollar", "^foo\\$", prefix("foo$")),
        ("alternatives", "^(a|b)$", f"is_one_of (codes {quote('a')} ∷ codes {quote('b')} ∷ [])"),
        ("no_white_space", "^\\S*$", "has_no_whitespace"),
        ("suffix_of_letters", "spam$", f"ends_with_text (codes {quote('spam')})"),
        ("prefix_of_all_special_characters", "^" + "".join("\\" + c for c in SPECIAL), prefix(SPECIAL)),
        ("prefix_of_other_characters", '^a b"#,:;<=>@_!&\'~`%/-é', prefix('a b"#,:;<=>@_!&\'~`%/-é')),
        ("suffix_that_is_a_dollar", "\\$$", f"ends_with_text (codes {quote('$')})"),
    ):
        g.is_pattern(n, p, l)
    for n, p in (
        ("letters_alone_are_no_test", "foo"), ("an_anchor_alone_is_no_test", "^"), ("two_anchors_are_no_test", "^$"),
        ("one_alternative_is_no_test", "^(a)$"), ("a_star_is_no_test", "^foo.*"), ("a_plus_is_no_test", "^foo+"),
        ("a_question_mark_is_no_test", "^foo?"), ("a_class_is_no_test", "^[a-z]"), ("open_alternatives_are_no_test", "^foo|bar"),
        ("a_closing_brace_is_no_test", "^a}"), ("a_closing_bracket_is_no_test", "^a]"),
        ("a_group_is_no_test", "^foo(bar)"), ("a_number_in_braces_is_no_test", "^a{2}"), ("a_digit_is_no_test", "^foo\\d"),
        ("a_word_character_is_no_test", "^a\\w"), ("an_escaped_hyphen_is_no_test", "^a\\-"), ("an_escaped_dollar_is_no_suffix", "foo\\$"),
        ("a_dollar_alone_is_no_suffix", "$"), ("a_group_is_no_suffix", "(a)$"), ("a_dot_is_no_suffix", "fo.o$"),
    ):
        g.is_no_pattern(n, p)
    return g


SPECIAL = "\\^$.*+?()[]{}|"
CLOSED = {"additionalProperties": False,
          "properties": {"foo": {"type": "string"}, "barbaz": {"type": "integer", "multipleOf": 3}},
          "patternProperties": {"^bar": {"type": "integer", "minimum": 5}, "spam$": {"type": "integer", "maximum": 10}}}


# ---- allOf, anyOf, oneOf, not, if


def branches():
    g = Group("Rows_branches", "Branches, negation and conditions.")
    g.fails("any_of_none_refuses", '{"anyOf":[]}', "1", ["1 is not valid under any of the schemas listed in the 'anyOf' keyword @ \"\", /anyOf []"])
    g.fails("one_of_none_refuses", '{"oneOf":[]}', "1", ["1 is not valid under any of the schemas listed in the 'oneOf' keyword @ \"\", /oneOf []"])
    g.holds("all_of_none_accepts", '{"allOf":[]}', "1")
    g.holds("one_accepting_branch_of_any_of_is_enough", '{"anyOf":[false,true]}', "1")
    g.fails("two_accepting_branches_are_too_many", '{"oneOf":[{"type":"string"},{"maxLength":3}]}', '""',
            ["\"\" is valid under more than one of the schemas listed in the 'oneOf' keyword @ \"\", /oneOf [{}{}]"])
    g.fails("three_accepting_branches_are_too_many", '{"oneOf":[true,true,true]}', "1",
            ["1 is valid under more than one of the schemas listed in the 'oneOf' keyword @ \"\", /oneOf [{}{}{}]"])
    g.holds("one_accepting_branch_is_enough", '{"oneOf":[{"type":"string"},{"maxLength":3}]}', '"long"')
    g.holds("the_other_branch_is_enough", '{"oneOf":[{"type":"string"},{"maxLength":3}]}', "5")
    g.fails("each_branch_tells_all_that_it_finds", '{"anyOf":[{"type":"integer"},{"required":["a","b"]}]}', "{}",
            ["{} is not valid under any of the schemas listed in the 'anyOf' keyword @ \"\", /anyOf "
             '[{{} is not of type "integer" @ "", /anyOf/0/type;}{"a" is a required property @ "", /anyOf/1/required;"b" is a required property @ "", /anyOf/1/required;}]'])
    inner = '"x" is not valid under any of the schemas listed in the \'anyOf\' keyword @ "", /anyOf/0/anyOf [{"x" is not of type "integer" @ "", /anyOf/0/anyOf/0/type;}{"x" is not of type "array" @ "", /anyOf/0/anyOf/1/type;}]'
    g.fails("branches_inside_a_branch_tell_theirs", '{"anyOf":[{"anyOf":[{"type":"integer"},{"type":"array"}]}]}', '"x"',
            ['"x" is not valid under any of the schemas listed in the \'anyOf\' keyword @ "", /anyOf [{' + inner + ";}]"])
    g.fails("inside_a_member_a_choice_and_its_branches_are_told_there", '{"properties":{"a":{"anyOf":[false]}}}', '{"a":1}',
            ["1 is not valid under any of the schemas listed in the 'anyOf' keyword @ /a, /properties/a/anyOf [{False schema does not allow 1 @ /a, /properties/a/anyOf/0;}]"])
    g.fails("one_of_in_a_branch_is_told_of_the_branch", '{"not":{"not":{"oneOf":[]}},"allOf":[{"oneOf":[]}]}', "1",
            ["1 is not valid under any of the schemas listed in the 'oneOf' keyword @ \"\", /allOf/0/oneOf []", '{"not":{"oneOf":[]}} is not allowed for 1 @ "", /not'])
    g.fails("a_negation_shows_its_schema", '{"not":{"type":"string"}}', '"foo"', ['{"type":"string"} is not allowed for "foo" @ "", /not'])
    g.fails("a_double_negation_shows_the_inner_one", '{"not":{"not":{"type":"string"}}}', "1", ['{"not":{"type":"string"}} is not allowed for 1 @ "", /not'])
    g.fails("inside_a_member_a_negation_is_told_there", '{"properties":{"a":{"not":true}}}', '{"a":1}', ["true is not allowed for 1 @ /a, /properties/a/not"])
    g.fails("where_the_condition_fails_else_applies", '{"if":{"minimum":0},"then":{"multipleOf":2},"else":{"multipleOf":2}}', "-1",
            ['-1 is not a multiple of 2 @ "", /else/multipleOf'])
    g.fails("where_the_condition_holds_then_applies", '{"if":{"minimum":0},"then":{"multipleOf":2},"else":{"multipleOf":3}}', "3",
            ['3 is not a multiple of 2 @ "", /then/multipleOf'])
    g.holds("then_alone_is_unread", '{"then":5}', "1")
    g.builds("then_alone_builds", '{"then":5}')
    g.holds("else_alone_is_unread", '{"else":false}', "1")
    g.fails("each_branch_of_all_of_is_asked", '{"allOf":[{"type":"string"},true,false]}', "1",
            ['1 is not of type "string" @ "", /allOf/0/type', 'False schema does not allow 1 @ "", /allOf/2'])
    g.fails("the_branch_behind_100_others_has_position_100", {"allOf": [True] * 100 + [False]}, "1", ['False schema does not allow 1 @ "", /allOf/100'])
    g.fails("the_eleventh_branch_has_position_10", {"allOf": [True] * 10 + [False]}, "1", ['False schema does not allow 1 @ "", /allOf/10'])
    return g


# ---- dependencies, names


def dependencies():
    g = Group("Rows_dependencies", "Dependencies between members, and schemas of member names.")
    g.fails("a_name_listed_twice_is_told_twice", '{"dependencies":{"a":["b","b"]}}', '{"a":1}', ['"b" is a required property @ "", /dependencies'] * 2)
    g.fails("a_dependent_schema_is_asked_of_the_object", '{"dependentSchemas":{"a":{"required":["b"]}}}', '{"a":1}',
            ['"b" is a required property @ "", /dependentSchemas/a/required'])
    g.fails("a_short_name_is_told_of_the_object", '{"propertyNames":{"minLength":2}}', '{"f":1}', ['"f" is shorter than 2 characters @ "", /propertyNames/minLength'])
    g.is_about("its_instance_is_the_object", '{"propertyNames":{"minLength":2}}', '{"f":1}', ['{"f":1}'])
    g.fails("each_short_name_is_told", '{"propertyNames":{"minLength":2}}', '{"a":1,"b":2}', ['"%s" is shorter than 2 characters @ "", /propertyNames/minLength' % n for n in "ab"])
    g.fails("all_faults_of_a_name_are_told", '{"propertyNames":{"minLength":2,"const":"b"}}', '{"a":1}',
            ['"a" is shorter than 2 characters @ "", /propertyNames/minLength', '"b" was expected @ "", /propertyNames/const'])
    for name, inner, line in (
        ("inside_a_member_a_long_name_is_told_there", '{"propertyNames":{"maxLength":0}}', '"b" is longer than 0 characters @ /a, /properties/a/propertyNames/maxLength'),
        ("inside_a_member_a_dependent_name_is_told_there", '{"dependentRequired":{"b":["c"]}}', '"c" is a required property @ /a, /properties/a/dependentRequired'),
    ):
        g.fails(name, '{"properties":{"a":%s}}' % inner, '{"a":{"b":1}}', [line])
    g.fails("no_name_is_allowed", '{"propertyNames":false}', '{"foo":1}', ['False schema does not allow {"foo":1} @ "", /propertyNames'])
    g.fails("two_names_that_are_not_allowed_are_one_fault", '{"propertyNames":false}', '{"a":1,"b":2}', ['False schema does not allow {"a":1,"b":2} @ "", /propertyNames'])
    g.holds("true_allows_each_name", '{"propertyNames":true}', '{"a":1}')
    g.holds("a_list_is_of_its_key_alone", '{"dependentRequired":{"a":["b"]}}', '{"c":1}')
    g.holds("a_list_of_a_dependency_is_of_its_key_alone", '{"dependencies":{"a":["b"]}}', "{}")
    g.holds("a_dependent_schema_is_of_its_key_alone", '{"dependentSchemas":{"a":false}}', "{}")
    g.holds("a_schema_is_of_its_key_alone", '{"dependencies":{"a":false}}', "{}")
    g.holds("no_names_are_none_refused", '{"propertyNames":false}', "{}")
    g.holds("a_name_is_no_object", '{"propertyNames":{"properties":{"a":false}}}', '{"a":1}')
    kind = g.schema("by_kind", '{"propertyDependencies":{"kind":{"a":{"required":["x"]},"b":false}}}')
    g.fails("a_text_chooses_its_schema", kind, '{"kind":"a"}', ['"x" is a required property @ "", /propertyDependencies/kind/a/required'])
    g.fails("a_text_chooses_a_false_schema", kind, '{"kind":"b"}', ['False schema does not allow {"kind":"b"} @ "", /propertyDependencies/kind/b'])
    for n, v in (("another_text_chooses_none", '{"kind":"c"}'), ("a_number_chooses_none", '{"kind":1}'), ("an_absent_member_chooses_none", "{}"), ("another_value_chooses_none", '"a"')):
        g.holds(n, kind, v)
    g.holds("null_is_not_the_text_null", '{"propertyDependencies":{"k":{"null":false}}}', '{"k":null}')
    g.holds("a_number_is_not_the_text_of_its_digits", '{"propertyDependencies":{"k":{"1":false}}}', '{"k":1}')
    g.holds("a_list_of_one_text_chooses_none", '{"propertyDependencies":{"k":{"a":false}}}', '{"k":["a"]}')
    g.holds("true_is_not_the_text_true", '{"propertyDependencies":{"k":{"true":false}}}', '{"k":true}')
    g.fails("a_name_that_two_keys_want_is_told_twice", '{"dependentRequired":{"a":["c"],"b":["c"]}}', '{"a":1,"b":1}', ['"c" is a required property @ "", /dependentRequired'] * 2)
    g.fails("a_declared_name_meets_the_schema_of_names", '{"properties":{"ab":{}},"propertyNames":{"maxLength":1}}', '{"ab":1}', ['"ab" is longer than 1 characters @ "", /propertyNames/maxLength'])
    g.fails("the_second_key_chooses_too", '{"propertyDependencies":{"a":{},"b":{"x":false}}}', '{"b":"x"}', ['False schema does not allow {"b":"x"} @ "", /propertyDependencies/b/x'])
    g.fails("the_empty_text_chooses_too", '{"propertyDependencies":{"k":{"":false}}}', '{"k":""}',
            ['False schema does not allow {"k":""} @ "", /propertyDependencies/k/'])
    return g


# ---- refusals


def refusals():
    g = Group("Rows_refusals", "Malformed schemas, each with all that is wrong with it.")
    for n, s, l in (
        ("a_refused_pattern", '{"patternProperties":{"a/b~(":{}}}', '"a/b~(" is not a "regex" @ "", /patternProperties/a~1b~0('),
        ("declared_names_that_are_no_object", '{"properties":5,"additionalProperties":false}', '5 is not of type "object" @ "", /properties'),
        ("a_reference_inside", '{"properties":{"a":{"$ref":"#"}}}', '"$ref" is not supported here @ "", /properties/a/$ref'),
        ("a_list_with_a_repeated_name", '{"dependentRequired":{"a":["b","b"]}}', '["b","b"] has non-unique elements @ "", /dependentRequired/a'),
        ("a_read_condition_that_is_no_schema", '{"if":5,"then":{}}', '5 is not of types "boolean", "object" @ "", /if'),
        ("a_branch_that_is_no_schema", '{"allOf":[5]}', '5 is not of types "boolean", "object" @ "", /allOf/0'),
        ("a_leaf_value_that_does_not_fit", '{"type":"text"}', '"text" is not a value for "type" @ "", /type'),
        ("a_listed_name_that_is_no_text", '{"dependencies":{"a":[1]}}', '1 is not of type "string" @ "", /dependencies'),
        ("equal_items_that_are_no_texts", '{"dependentRequired":{"a":[1,1]}}', '1 is not of type "string" @ "", /dependentRequired'),
        ("a_repeated_name_before_another_item", '{"dependentRequired":{"a":["b","b",1]}}', '["b","b",1] has non-unique elements @ "", /dependentRequired/a'),
        ("additional_properties_that_are_no_schema", '{"additionalProperties":5,"properties":{"a":{}}}', '5 is not of types "boolean", "object" @ "", /additionalProperties'),
        ("a_required_item_that_is_no_text", '{"properties":{"a":{}},"additionalProperties":false,"required":[5]}', '5 is not of type "string" @ "", /required'),
        ("a_reference_in_a_branch", '{"allOf":[{"$ref":"#"},{"type":"integer"}]}', '"$ref" is not supported here @ "", /allOf/0/$ref'),
        ("property_dependencies_that_are_no_object", '{"propertyDependencies":5}', '5 is not of type "object" @ "", /propertyDependencies'),
        ("an_entry_of_property_dependencies_that_is_no_object", '{"propertyDependencies":{"k":5}}', '5 is not of type "object" @ "", /propertyDependencies/k'),
        ("a_schema_of_property_dependencies_that_is_none", '{"propertyDependencies":{"k":{"t/u":5}}}', '5 is not of types "boolean", "object" @ "", /propertyDependencies/k/t~1u'),
        ("a_root_that_is_no_schema", "5", '5 is not of types "boolean", "object" @ "", ""'),
        ("a_root_that_is_null", "null", 'null is not of types "boolean", "object" @ "", ""'),
        ("a_root_that_is_a_text", '"a"', '"a" is not of types "boolean", "object" @ "", ""'),
        ("a_root_that_is_a_list", "[]", '[] is not of types "boolean", "object" @ "", ""'),
        ("the_first_of_two_items_that_are_no_texts", '{"required":[1,2]}', '1 is not of type "string" @ "", /required'),
        ("a_name_repeated_behind_another", '{"dependentRequired":{"a":["b","c","b"]}}', '["b","c","b"] has non-unique elements @ "", /dependentRequired/a'),
        ("a_name_repeated_after_another", '{"dependentRequired":{"a":["c","b","b"]}}', '["c","b","b"] has non-unique elements @ "", /dependentRequired/a'),
        ("beside_else_a_condition_is_read", '{"if":5,"else":{}}', '5 is not of types "boolean", "object" @ "", /if'),
        ("beside_patterns_an_additional_schema_is_read", '{"patternProperties":{},"additionalProperties":{"not":5}}', '5 is not of types "boolean", "object" @ "", /additionalProperties/not'),
        ("the_second_branch_of_one_of_is_read", '{"oneOf":[{},5]}', '5 is not of types "boolean", "object" @ "", /oneOf/1'),
        ("the_second_dependent_schema_is_read", '{"dependentSchemas":{"a":{},"b":5}}', '5 is not of types "boolean", "object" @ "", /dependentSchemas/b'),
        ("the_second_schema_of_dependencies_is_read", '{"dependencies":{"a":{},"b":5}}', '5 is not of types "boolean", "object" @ "", /dependencies/b'),
        ("the_second_list_of_dependencies_is_checked", '{"dependencies":{"a":[],"b":[5]}}', '5 is not of type "string" @ "", /dependencies'),
        ("the_second_entry_of_property_dependencies_is_checked", '{"propertyDependencies":{"a":{},"b":5}}', '5 is not of type "object" @ "", /propertyDependencies/b'),
        ("the_second_entry_of_property_dependencies_is_read", '{"propertyDependencies":{"a":{},"b":{"x":5}}}', '5 is not of types "boolean", "object" @ "", /propertyDependencies/b/x'),
    ):
        g.is_refused(n, s, [l])
    g.is_refused("each_refused_pattern_is_told", '{"patternProperties":{"a(":{},"b(":{}}}', ['"%s(" is not a "regex" @ "", /patternProperties/%s(' % (n, n) for n in "ab"])
    g.is_refused("each_entry_that_is_no_list_is_told", '{"dependentRequired":{"a":5,"b":5}}', ['5 is not of type "array" @ "", /dependentRequired/%s' % n for n in "ab"])
    g.is_refused("the_first_item_of_each_list_of_dependencies_is_told", '{"dependencies":{"a":[5,7],"b":[6]}}', ['%d is not of type "string" @ "", /dependencies' % n for n in (5, 6)])
    g.is_refused("each_entry_of_property_dependencies_is_told", '{"propertyDependencies":{"a":5,"b":6}}', ['%d is not of type "object" @ "", /propertyDependencies/%s' % e for e in ((5, "a"), (6, "b"))])
    g.is_refused("each_keyword_and_place_is_told_and_what_is_inside", '{"allOf":[5,6],"anyOf":7,"patternProperties":{"(":{"$ref":1}}}',
                 ['5 is not of types "boolean", "object" @ "", /allOf/0', '6 is not of types "boolean", "object" @ "", /allOf/1', '7 is not of type "array" @ "", /anyOf',
                  '"(" is not a "regex" @ "", /patternProperties/(', '"$ref" is not supported here @ "", /patternProperties/(/$ref'])
    unsupported = ("$ref", "$dynamicRef", "$recursiveRef", "unevaluatedProperties", "unevaluatedItems")
    objects = ("properties", "patternProperties", "dependentRequired", "dependentSchemas", "dependencies", "propertyDependencies")
    arrays = ("required", "allOf", "anyOf", "oneOf")
    schemas = ("additionalProperties", "not", "if", "then", "else")
    g.is_always_refused("no_keyword_is_a_leaf_whatever_the_leaves_read", {"propertyNames": {"not": 5}, **dict.fromkeys((*unsupported, *objects, *arrays, *schemas), 5)},
                        ['5 is not of types "boolean", "object" @ "", /%s' % k for k in (*schemas, "propertyNames/not")]
                        + ['5 is not of type "object" @ "", /' + k for k in objects] + ['5 is not of type "array" @ "", /' + k for k in arrays]
                        + ['"%s" is not supported here @ "", /%s' % (k, k) for k in unsupported])
    bad = [('{"%s":5}' % k, '5 is not of type "%s"' % t, "/" + k) for t, ks in (("object", objects), ("array", arrays)) for k in ks]
    bad += [('{"%s":5}' % k, '"%s" is not supported here' % k, "/" + k) for k in unsupported]
    bad += [('{"additionalProperties":5}', '5 is not of types "boolean", "object"', "/additionalProperties"), ('{"patternProperties":{"(":{}}}', '"(" is not a "regex"', "/patternProperties/("),
            ('{"required":[5]}', '5 is not of type "string"', "/required"), ('{"dependentRequired":{"a":5}}', '5 is not of type "array"', "/dependentRequired/a"),
            ('{"dependentRequired":{"a":["b","b"]}}', '["b","b"] has non-unique elements', "/dependentRequired/a"), ('{"dependentRequired":{"a":[5]}}', '5 is not of type "string"', "/dependentRequired"),
            ('{"dependencies":{"a":[5]}}', '5 is not of type "string"', "/dependencies"), ('{"propertyDependencies":{"a":5}}', '5 is not of type "object"', "/propertyDependencies/a"),
            ('{"type":5}', '5 is not a value for "type"', "/type")]
    inside = g.table("wrong_inside", bad)
    alone = [(v, v + ' is not of types "boolean", "object"', "") for v in ("null", "5", '"a"', "[]")]
    g.table("no_schema", alone)
    g.table("no_schema_and_no_list", alone[:-1])
    kinds = {"null": "null", "boolean": "true", "string": '"a"', "array": "[]", "object": "{}"}
    other = g.table("of_another_kind", [
        (schema % v, message % v, path)
        for kind, v in kinds.items()
        for own, schema, path in (
            *(("object", '{"%s":%%s}' % k, "/" + k) for k in objects), ("object", '{"propertyDependencies":{"a":%s}}', "/propertyDependencies/a"),
            *(("array", '{"%s":%%s}' % k, "/" + k) for k in arrays), ("array", '{"dependentRequired":{"a":%s}}', "/dependentRequired/a"),
            ("string", '{"required":[%s]}', "/required"), ("string", '{"dependentRequired":{"a":[%s]}}', "/dependentRequired"), ("string", '{"dependencies":{"a":[%s]}}', "/dependencies"),
        )
        if kind != own
        for message in ['%%s is not of type "%s"' % own]
    ] + [('{"%s":%s}' % (k, v), '"%s" is not supported here' % k, "/" + k) for k in unsupported for v in kinds.values()])
    g.are_refused_at("each_keyword_refuses_each_other_kind", "", "%s", other)
    for label, place, path in (
        ("at_the_root", "%s", ""), ("in_properties", '{"properties":{"n":%s}}', "/properties/n"), ("in_pattern_properties", '{"patternProperties":{"n":%s}}', "/patternProperties/n"),
        ("in_additional_properties", '{"additionalProperties":%s}', "/additionalProperties"), ("in_property_names", '{"propertyNames":%s}', "/propertyNames"),
        ("in_dependent_schemas", '{"dependentSchemas":{"n":%s}}', "/dependentSchemas/n"), ("in_dependencies", '{"dependencies":{"n":%s}}', "/dependencies/n"),
        ("in_property_dependencies", '{"propertyDependencies":{"n":{"t":%s}}}', "/propertyDependencies/n/t"),
        ("in_all_of", '{"allOf":[%s]}', "/allOf/0"), ("in_any_of", '{"anyOf":[true,%s]}', "/anyOf/1"), ("in_one_of", '{"oneOf":[%s]}', "/oneOf/0"), ("in_not", '{"not":%s}', "/not"),
        ("in_if", '{"if":%s,"then":{}}', "/if"), ("in_then", '{"if":{},"then":%s}', "/then"), ("in_else", '{"if":{},"else":%s}', "/else"),
    ):
        g.are_refused_at(label, path, place, inside)
        if label not in ("at_the_root", "in_property_names"):
            g.are_refused_at(label.replace("in_", "no_schema_in_", 1), path, place, "no_schema_and_no_list" if label == "in_dependencies" else "no_schema")
    g.all_build("each_keyword_builds_of_nothing", [{k: {}} for k in (*objects, *schemas, "propertyNames")] + [{k: []} for k in arrays] + [{k: {"a": []}} for k in ("dependentRequired", "dependencies")] + [True, False, {}])
    g.all_build("truth_values_build", [{k: b} for k in (*schemas, "propertyNames") for b in (True, False)])
    g.all_build("repeats_build", [{"required": ["a", "a"]}, *({k: [True, True]} for k in ("allOf", "anyOf", "oneOf"))])
    g.all_build("ignored_names_build_of_anything", [{k: v} for k in ("$schema", "$id", "$defs", "items") for v in ("x", {})])
    g.builds("a_condition_alone_builds", '{"if":5}')
    g.builds("an_ignored_keyword_holds_no_schema", '{"x":{"$ref":1}}')
    g.builds("names_that_are_neither_false_nor_an_object_build", '{"propertyNames":5}')
    g.builds("null_for_names_builds", '{"propertyNames":null}')
    g.builds("a_test_that_the_matcher_refuses_builds", '{"patternProperties":{"^(a|b)$":{}}}')
    g.builds("else_alone_builds", '{"else":5}')
    g.builds("a_dependency_may_list_a_name_twice", '{"dependencies":{"a":["b","b"]}}')
    return g


# ---- costs


def costs():
    g = Group("Rows_costs", "What a build counts, and how many matchers a verdict may ask.")
    slow = g.schema("slow_declared", '{"properties":{"ax":{}},"patternProperties":{"(slow)x":{"type":"integer"}},"additionalProperties":false}')
    g.costs("a_matcher_is_asked_for_a_declared_name", slow, 3, 1, 1, 1)
    g.asks("an_unfinished_entry_is_asked_again", slow, '{"ax":"t"}', 1)
    two = g.schema("prefix_and_suffix", '{"patternProperties":{"^x":{},"spam$":{"type":"integer"}}}')
    g.costs("tests_make_no_matcher", two, 3, 1, 0, 0)
    g.asks("tests_ask_no_matcher", two, '{"x1":"t"}', 0)
    g.costs("patterns_beside_true_are_compiled_once", '{"additionalProperties":true,"patternProperties":{"^x":{"type":"integer"}}}', 2, 1, 0, 0)
    shut = g.schema("closed_suffix", '{"properties":{"a":{},"bspam":{}},"patternProperties":{"spam$":{}},"additionalProperties":false}')
    g.costs("a_table_of_tests_asks_no_matcher", shut, 4, 0, 0, 0)
    g.asks("declared_names_ask_no_matcher", shut, '{"a":1,"bspam":2}', 0)
    g.asks("other_names_ask_no_matcher", shut, '{"a":1,"xspam":1}', 0)
    g.costs("a_condition_that_is_read_is_compiled", '{"allOf":[{"if":{"type":"integer"},"then":{"minimum":1}},true]}', 5, 2, 0, 0)
    g.costs("a_condition_alone_is_not_compiled", '{"if":{"type":"integer"}}', 1, 0, 0, 0)
    g.costs("true_for_names_is_not_compiled", '{"propertyNames":true}', 1, 0, 0, 0)
    g.costs("false_for_names_is_not_compiled", '{"propertyNames":false}', 1, 0, 0, 0)
    g.costs("a_name_list_is_not_compiled", '{"dependencies":{"a":["b"],"c":{}}}', 2, 0, 0, 0)
    three = g.schema("three_patterns", '{"additionalProperties":false,"properties":{"a":{},"b":{}},"patternProperties":{"x":{},"y$":{},"^z":{}}}')
    g.costs("one_of_three_patterns_makes_a_matcher", three, 6, 0, 1, 2)
    g.asks("one_of_three_patterns_asks_a_matcher", three, '{"c":1}', 1)
    g.costs("schemas_chosen_by_a_text_are_compiled", '{"propertyDependencies":{"k":{"a":{"type":"string"},"b":{}}}}', 3, 1, 0, 0)
    shut_two = {"properties": {"a": {}, "b": {}, "c": {}}, "patternProperties": {"x": {}, "y": {}}, "additionalProperties": False}
    g.costs("in_a_branch_three_names_and_two_patterns_ask_six", {"allOf": [shut_two]}, 7, 0, 2, 6)
    g.costs("each_place_is_compiled_once", {k: {} for k in ("additionalProperties", "propertyNames", "not", "if", "then", "else", "title")} | {k: [{}] for k in ("allOf", "anyOf", "oneOf")}
            | {k: {"a": {}} for k in ("properties", "patternProperties", "dependentSchemas", "dependencies")} | {"propertyDependencies": {"k": {"a": {}}}}, 15, 0, 1, 1)
    g.asks("patterns_inside_patterns_are_asked", '{"patternProperties":{"a":{"patternProperties":{"b":{}}}}}', '{"a":{"b":1},"c":2}', 3)
    g.asks("each_branch_may_be_asked", '{"anyOf":[true,{"patternProperties":{"x":{}}}]}', '{"x":1}', 1)
    g.asks("each_member_asks_the_matcher", '{"patternProperties":{"(slow)x":{"type":"integer"}}}', '{"ax":"t","b":"t"}', 2)
    open_object = g.schema("one_name_and_one_pattern", '{"properties":{"b":{}},"patternProperties":{"a":{}}}')
    g.costs("without_additional_properties_there_is_no_table", open_object, 3, 0, 1, 0)
    g.asks("without_a_table_a_declared_name_asks", open_object, '{"b":1}', 1)
    table = g.schema("beside_an_additional_schema", '{"properties":{"a":{}},"patternProperties":{"x":{}},"additionalProperties":{}}')
    g.costs("beside_an_additional_schema_there_is_a_table", table, 4, 0, 1, 1)
    g.asks("beside_an_additional_schema_a_declared_name_asks_nothing", table, '{"a":1}', 0)
    for name, schema in (
        ("a_negation_asks", '{"not":{"patternProperties":{"a":false}}}'),
        ("a_branch_of_one_of_asks", '{"oneOf":[{"patternProperties":{"a":false}}]}'),
        ("the_second_branch_of_one_of_asks", '{"oneOf":[{},{"patternProperties":{"a":false}}]}'),
        ("the_third_branch_of_any_of_asks", '{"anyOf":[{},{},{"patternProperties":{"a":false}}]}'),
        ("a_condition_asks", '{"if":{"patternProperties":{"a":false}},"then":true}'),
        ("beside_else_a_condition_asks", '{"if":{"patternProperties":{"a":false}},"else":true}'),
        ("what_applies_where_the_condition_holds_asks", '{"if":true,"then":{"patternProperties":{"a":{}}}}'),
        ("a_dependent_schema_asks", '{"dependentSchemas":{"b":{"patternProperties":{"a":{}}}}}'),
        ("a_schema_of_a_dependency_asks", '{"dependencies":{"b":{"patternProperties":{"a":{}}}}}'),
        ("a_branch_of_all_of_asks", '{"allOf":[{"patternProperties":{"a":{}}}]}'),
        ("what_applies_where_the_condition_fails_asks", '{"if":false,"else":{"patternProperties":{"a":{}}}}'),
    ):
        g.asks(name, schema, '{"b":1}', 1)
    g.asks("a_schema_chosen_by_a_text_asks", '{"propertyDependencies":{"k":{"t":{"patternProperties":{"a":{}}}}}}', '{"k":"t"}', 1)
    g.asks("a_declared_member_asks", '{"properties":{"b":{"patternProperties":{"a":{}}}}}', '{"b":{"c":1}}', 1)
    g.asks("two_unfinished_entries_are_asked_again", '{"properties":{"ab":{}},"patternProperties":{"(slow)a":{},"(slow)b":{}},"additionalProperties":false}', '{"ab":1}', 2)
    g.asks("an_additional_schema_asks", '{"additionalProperties":{"patternProperties":{"a":{}}}}', '{"b":{"c":1}}', 1)
    g.costs("a_member_and_its_leaf_are_counted", '{"properties":{"a":{"type":"integer"}}}', 2, 1, 0, 0)
    g.costs("else_alone_is_not_compiled", '{"else":false}', 1, 0, 0, 0)
    g.costs("a_schema_of_a_dependency_is_compiled", '{"dependencies":{"a":false}}', 2, 0, 0, 0)
    g.costs("a_dependent_schema_is_compiled", '{"dependentSchemas":{"a":{}}}', 2, 0, 0, 0)
    g.costs("an_additional_schema_is_compiled", '{"additionalProperties":{}}', 2, 0, 0, 0)
    g.costs("each_branch_of_one_of_is_compiled", '{"oneOf":[{},{}]}', 3, 0, 0, 0)
    g.costs("patterns_in_a_branch_make_matchers", '{"allOf":[{"patternProperties":{"a":{}}}]}', 3, 0, 1, 0)
    names = {"m%02d" % i: {} for i in range(65)}
    wide = g.schema("patterns_65", {"additionalProperties": False, "properties": {"m64": {}}, "patternProperties": names})
    wider = g.schema("patterns_66", {"additionalProperties": False, "properties": {"m64": {}}, "patternProperties": {"(slow)m64": False, **names}})
    g.costs("a_table_of_65_patterns", wide, 67, 0, 65, 65)
    g.costs("a_table_of_66_patterns", wider, 68, 0, 66, 66)
    g.asks("no_entry_of_65_is_asked_again", wide, '{"m64":1}', 0)
    g.asks("one_entry_of_66_is_asked_again", wider, '{"m64":1}', 1)
    return g


# ---- evaluation


def evaluation():
    g = Group("Rows_evaluation", "Evaluation trees.")
    two = g.schema("two_required", '{"properties":{"a":{"type":"integer"},"b":{"type":"string"}},"required":["a","b"]}')
    g.evaluates("the_names_met_are_shown", two, '{"a":1,"b":"x"}',
                '{"annotations":[{"instancePath":"","names":["a","b"],"schemaPath":"/properties"}],"errors":[],"valid":true}')
    g.has_nodes("a_fused_validator_stands_at_its_keyword", two, '{"a":1,"b":"x"}',
                '""(/properties(/properties/a(/properties/a/type))(/properties/b(/properties/b/type)))')

    def missing(n):
        return '{"instancePath":"","keyword":"required","message":"\\"%s\\" is a required property","schemaPath":"/required"}' % n

    g.evaluates("two_missing_names_are_two_errors", two, "{}", '{"annotations":[],"errors":[%s,%s],"valid":false}' % (missing("a"), missing("b")))
    g.evaluates("a_missing_name_is_a_child_at_required", '{"properties":{"a":{}},"additionalProperties":false,"required":["z"]}', "{}",
                '{"annotations":[],"errors":[%s],"valid":false}' % missing("z"))
    g.evaluates("a_name_for_each_match", '{"patternProperties":{"^a":{},"^ab":{}}}', '{"abc":1}',
                '{"annotations":[{"instancePath":"","names":["abc","abc"],"schemaPath":"/patternProperties"}],"errors":[],"valid":true}')
    g.evaluates("more_than_one_branch_is_an_own_error", '{"oneOf":[{"type":"string"},{"maxLength":3}]}', '""',
                '{"annotations":[],"errors":[{"instancePath":"","keyword":"oneOf","message":"more than one subschema succeeded","schemaPath":"/oneOf"}],"valid":false}')
    g.evaluates("matches_stand_in_a_child_of_their_own", '{"additionalProperties":{"type":"integer"},"patternProperties":{"^x":{}}}', '{"x1":"t","y":2}',
                '{"annotations":[{"instancePath":"","names":["y"],"schemaPath":"/additionalProperties"},{"instancePath":"","names":["x1"],"schemaPath":"/patternProperties"}],"errors":[],"valid":true}')
    for n, nodes in ((14, '""(/properties(/required))'), (15, '""(/properties)(/required)')):
        g.has_nodes("of_%d_names_two_are_missing" % n, {"properties": {"p%02d" % i: {} for i in range(n)}, "required": ["p00", "p01"]}, "{}", nodes)
    g.has_nodes("one_missing_name_stands_in_the_closed_object", '{"properties":{"a":{}},"additionalProperties":false,"required":["z"]}', "{}", '""(/additionalProperties(/required))')
    g.has_nodes("beside_patterns_it_stands_alone", '{"properties":{"a":{}},"patternProperties":{"^b":{}},"additionalProperties":false,"required":["z"]}', "{}", '""(/additionalProperties)(/required)')
    g.has_nodes("a_condition_that_holds_is_shown", '{"if":true,"then":true,"else":false}', "1", '""(/if(/if)(/then))')
    g.has_nodes("a_condition_that_fails_is_not_shown", '{"if":false,"then":false,"else":true}', "1", '""(/if(/else))')
    g.has_nodes("a_schema_chosen_by_a_text_is_shown", '{"propertyDependencies":{"k":{"a":true,"b":false}}}', '{"k":"a"}', '""(/propertyDependencies(/propertyDependencies/k/a))')
    g.evaluates("errors_of_the_parent_come_first", '{"properties":{"a":false},"additionalProperties":false}', '{"a":1,"b":2}',
                '{"annotations":[],"errors":[{"instancePath":"","keyword":"additionalProperties","message":"Additional properties are not allowed (\'b\' was unexpected)","schemaPath":"/additionalProperties"},'
                '{"instancePath":"/a","keyword":"falseSchema","message":"False schema does not allow 1","schemaPath":"/properties/a"}],"valid":false}')
    nothing = '{"annotations":[],"errors":[],"valid":false}'
    g.evaluates("any_of_none_is_invalid_without_errors", '{"anyOf":[]}', "1", nothing)
    g.evaluates("one_of_none_is_invalid_without_errors", '{"oneOf":[]}', "1", nothing)
    g.evaluates("a_false_schema_is_an_error_of_its_place", '{"properties":{"a":false}}', '{"a":1}',
                '{"annotations":[],"errors":[{"instancePath":"/a","keyword":"falseSchema","message":"False schema does not allow 1","schemaPath":"/properties/a"}],"valid":false}')
    return g


# ---- evaluation trees, whole


def trees():
    g = Group("Rows_trees", "Whole evaluation trees: paths, validity, names, errors and children of each node.")

    def required(*names):
        return "".join(' error required: "%s" is a required property' % n for n in names)

    false = " error falseSchema: False schema does not allow 1"
    for name, schema, value, tree in (
        ("two_equal_required_names_are_not_fused", '{"properties":{},"required":["a","a"]}', "{}",
         '"" @ "" invalid(/properties @ "" names [])(/required @ "" invalid' + required("a", "a") + ")"),
        ("beside_patterns_two_names_are_not_fused", '{"properties":{},"patternProperties":{},"required":["a","b"]}', "{}",
         '"" @ "" invalid(/patternProperties @ "" names [])(/properties @ "" names [])(/required @ "" invalid' + required("a", "b") + ")"),
        ("beside_an_additional_schema_one_name_is_not_fused", '{"properties":{},"additionalProperties":{},"required":["a"]}', "{}",
         '"" @ "" invalid(/additionalProperties @ "")(/required @ "" invalid' + required("a") + ")"),
        ("in_a_closed_object_two_names_are_not_fused", '{"properties":{},"additionalProperties":false,"required":["a","b"]}', "{}",
         '"" @ "" invalid(/additionalProperties @ "")(/required @ "" invalid' + required("a", "b") + ")"),
        ("two_fused_names_are_shown_inside", '{"properties":{},"required":["a","b"]}', "{}",
         '"" @ "" invalid(/properties @ "" invalid(/required @ "" invalid' + required("a", "b") + "))"),
        ("one_fused_name_is_shown_inside", '{"properties":{},"additionalProperties":false,"required":["a"]}', "{}",
         '"" @ "" invalid(/additionalProperties @ "" invalid(/required @ "" invalid' + required("a") + "))"),
        ("in_an_open_object_one_name_is_not_fused", '{"properties":{},"required":["a"]}', "{}", '"" @ "" invalid(/properties @ "" names [])(/required @ "" invalid' + required("a") + ")"),
        ("three_names_are_not_fused", '{"properties":{},"required":["a","b","c"]}', "{}", '"" @ "" invalid(/properties @ "" names [])(/required @ "" invalid' + required("a", "b", "c") + ")"),
        ("beside_true_two_names_are_fused", '{"properties":{},"additionalProperties":true,"required":["a","b"]}', "{}",
         '"" @ "" invalid(/properties @ "" invalid(/required @ "" invalid' + required("a", "b") + "))"),
        ("beside_15_declared_names_one_name_is_fused", {"properties": {"p%02d" % i: {} for i in range(15)}, "additionalProperties": False, "required": ["p00"]}, "{}",
         '"" @ "" invalid(/additionalProperties @ "" invalid(/required @ "" invalid' + required("p00") + "))"),
        ("one_of_two_fused_names_is_the_last_child", '{"properties":{"a":{}},"required":["a","b"]}', '{"a":1}',
         '"" @ "" invalid(/properties @ "" invalid(/properties/a @ /a)(/required @ "" invalid' + required("b") + "))"),
        ("one_fused_name_is_the_last_child", '{"properties":{"a":{}},"additionalProperties":false,"required":["b"]}', '{"a":1}',
         '"" @ "" invalid(/additionalProperties @ "" invalid(/properties/a @ /a)(/required @ "" invalid' + required("b") + "))"),
        ("required_names_that_are_met_are_shown", '{"required":["a"]}', '{"a":1}', '"" @ ""(/required @ "")'),
        ("a_declared_name_shows_its_patterns_too", '{"properties":{"a":{}},"patternProperties":{"^a":{}},"additionalProperties":false}', '{"a":1}',
         '"" @ ""(/additionalProperties @ ""(/properties/a @ /a)(/patternProperties/^a @ /a))'),
        ("declared_and_additional_members_stand_in_their_order", '{"properties":{"b":{}},"additionalProperties":{}}', '{"a":1,"b":2}',
         '"" @ ""(/additionalProperties @ "" names ["a"](/additionalProperties @ /a)(/properties/b @ /b))'),
        ("an_additional_member_stands_at_its_own_path", '{"additionalProperties":{}}', '{"a":1}', '"" @ ""(/additionalProperties @ "" names ["a"](/additionalProperties @ /a))'),
        ("a_declared_name_is_escaped_in_both_paths", '{"properties":{"a/b":{}}}', '{"a/b":1}', '"" @ ""(/properties @ "" names ["a/b"](/properties/a~1b @ /a~1b))'),
        ("a_pattern_and_its_member_are_escaped", '{"patternProperties":{"a/":{}},"additionalProperties":false}', '{"a/":1}',
         '"" @ ""(/additionalProperties @ ""(/patternProperties/a~1 @ /a~1)(/patternProperties @ "" names ["a/"]))'),
        ("beside_declared_names_matches_have_no_child", '{"properties":{},"patternProperties":{"^a":{}},"additionalProperties":false}', '{"a":1}',
         '"" @ ""(/additionalProperties @ ""(/patternProperties/^a @ /a))'),
        ("without_a_match_there_is_no_child_of_matches", '{"patternProperties":{},"additionalProperties":{}}', "{}", '"" @ ""(/additionalProperties @ "")'),
        ("the_child_of_matches_is_valid_where_a_member_is_not", '{"patternProperties":{"^a":false},"additionalProperties":false}', '{"a":1}',
         '"" @ "" invalid(/additionalProperties @ "" invalid(/patternProperties/^a @ /a invalid' + false + ')(/patternProperties @ "" names ["a"]))'),
        ("the_child_of_matches_goes_member_by_member", '{"patternProperties":{"^a":{},"^ab":{}},"additionalProperties":{}}', '{"ab":1,"ac":2}',
         '"" @ ""(/additionalProperties @ ""(/patternProperties/^a @ /ab)(/patternProperties/^ab @ /ab)(/patternProperties/^a @ /ac)(/patternProperties @ "" names ["ab","ab","ac"]))'),
        ("a_matching_name_is_not_additional", '{"patternProperties":{"^a":{}},"additionalProperties":false}', '{"a":1}',
         '"" @ ""(/additionalProperties @ ""(/patternProperties/^a @ /a)(/patternProperties @ "" names ["a"]))'),
        ("alone_an_additional_schema_shows_even_no_names", '{"additionalProperties":{}}', "{}", '"" @ ""(/additionalProperties @ "" names [])'),
        ("beside_declared_names_no_additional_names_are_not_shown", '{"properties":{},"additionalProperties":{}}', "{}", '"" @ ""(/additionalProperties @ "")'),
        ("beside_declared_names_and_patterns_even_no_names_are_shown", '{"properties":{},"patternProperties":{},"additionalProperties":{}}', "{}", '"" @ ""(/additionalProperties @ "" names [])'),
        ("beside_true_declared_names_are_shown", '{"properties":{},"additionalProperties":true}', "{}", '"" @ ""(/properties @ "" names [])'),
        ("of_another_value_no_names_are_shown", '{"properties":{}}', "1", '"" @ ""(/properties @ "")'),
        ("patterns_are_shown_of_another_value", '{"patternProperties":{}}', "1", '"" @ ""(/patternProperties @ "")'),
        ("false_for_additional_members_is_shown_of_another_value", '{"additionalProperties":false}', "1", '"" @ ""(/additionalProperties @ "")'),
        ("a_schema_of_names_is_shown_of_another_value", '{"propertyNames":{}}', "1", '"" @ ""(/propertyNames @ "")'),
        ("undeclared_names_are_not_shown", '{"properties":{}}', '{"a":1}', '"" @ ""(/properties @ "" names [])'),
        ("names_are_shown_pattern_by_pattern", '{"patternProperties":{"^a":{},"^ab":{}}}', '{"ab":1,"ac":2}',
         '"" @ ""(/patternProperties @ "" names ["ab","ac","ab"](/patternProperties/^a @ /ab)(/patternProperties/^a @ /ac)(/patternProperties/^ab @ /ab))'),
        ("branches_of_all_of_stand_at_their_keyword", '{"allOf":[true]}', "1", '"" @ ""(/allOf @ ""(/allOf/0 @ ""))'),
        ("a_choice_shows_each_accepting_branch", '{"anyOf":[true,true]}', "1", '"" @ ""(/anyOf @ ""(/anyOf/0 @ "")(/anyOf/1 @ ""))'),
        ("the_one_accepting_branch_is_shown", '{"oneOf":[true]}', "1", '"" @ ""(/oneOf @ ""(/oneOf/0 @ ""))'),
        ("a_choice_that_fails_shows_all_branches", '{"anyOf":[false]}', "1", '"" @ "" invalid(/anyOf @ "" invalid(/anyOf/0 @ "" invalid' + false + "))"),
        ("of_no_accepting_branch_all_are_shown", '{"oneOf":[false]}', "1", '"" @ "" invalid(/oneOf @ "" invalid(/oneOf/0 @ "" invalid' + false + "))"),
        ("of_too_many_branches_the_accepting_are_shown", '{"oneOf":[true,true,false]}', "1",
         '"" @ "" invalid(/oneOf @ "" invalid error oneOf: more than one subschema succeeded(/oneOf/0 @ "")(/oneOf/1 @ ""))'),
        ("a_negation_that_accepts_is_shown", '{"not":false}', "1", '"" @ ""(/not @ "")'),
        ("dependent_names_are_shown_without_their_key", '{"dependentRequired":{"a":[]}}', "{}", '"" @ ""(/dependentRequired @ "")'),
        ("dependent_schemas_are_shown_without_their_key", '{"dependentSchemas":{"a":{}}}', "{}", '"" @ ""(/dependentSchemas @ "")'),
        ("property_dependencies_are_shown_without_their_key", '{"propertyDependencies":{"k":{"a":{}}}}', "{}", '"" @ ""(/propertyDependencies @ "")'),
        ("a_dependent_schema_stands_inside_its_keyword", '{"dependentSchemas":{"a":{}}}', '{"a":1}', '"" @ ""(/dependentSchemas @ ""(/dependentSchemas/a @ ""))'),
        ("a_schema_of_a_dependency_stands_inside_its_keyword", '{"dependencies":{"a":{}}}', '{"a":1}', '"" @ ""(/dependencies @ ""(/dependencies/a @ ""))'),
        ("a_dependent_list_stands_at_its_keyword", '{"dependentRequired":{"a":[]}}', '{"a":1}', '"" @ ""(/dependentRequired @ ""(/dependentRequired @ ""))'),
        ("a_missing_dependent_name_stands_at_its_keyword", '{"dependentRequired":{"a":["b"]}}', '{"a":1}',
         '"" @ "" invalid(/dependentRequired @ "" invalid(/dependentRequired @ "" invalid' + required("b") + "))"),
        ("a_list_of_a_dependency_stands_at_its_keyword", '{"dependencies":{"a":[]}}', '{"a":1}', '"" @ ""(/dependencies @ ""(/dependencies @ ""))'),
        ("the_tree_of_a_name_stands_at_the_object", '{"propertyNames":{}}', '{"a":1}', '"" @ ""(/propertyNames @ ""(/propertyNames @ ""))'),
        ("the_error_of_a_name_stands_at_the_object", '{"propertyNames":{"minLength":1}}', '{"":1}',
         '"" @ "" invalid(/propertyNames @ "" invalid(/propertyNames @ "" invalid(/propertyNames/minLength @ "" invalid error minLength: "" is shorter than 1 characters)))'),
        ("true_for_names_is_not_shown", '{"propertyNames":true}', '{"a":1}', '"" @ ""'),
        ("false_for_names_is_shown_where_it_accepts", '{"propertyNames":false}', "{}", '"" @ ""(/propertyNames @ "")'),
        ("a_condition_that_refuses_is_not_shown", '{"if":false,"else":true}', "1", '"" @ ""(/if @ ""(/else @ ""))'),
        ("a_condition_without_then_is_shown", '{"if":true,"else":false}', "1", '"" @ ""(/if @ ""(/if @ ""))'),
        ("a_condition_that_refuses_without_else_is_shown_empty", '{"if":false,"then":true}', "1", '"" @ ""(/if @ "")'),
        ("else_alone_is_not_shown", '{"else":false}', "1", '"" @ ""'),
        ("an_invalid_node_shows_no_names", '{"properties":{"a":false}}', '{"a":1}', '"" @ "" invalid(/properties @ "" invalid(/properties/a @ /a invalid' + false + "))"),
        ("the_error_of_a_leaf_has_its_keyword", '{"minimum":5}', "1", '"" @ "" invalid(/minimum @ "" invalid error minimum: 1 is less than the minimum of 5)'),
        ("the_error_of_a_negation_has_its_keyword", '{"not":true}', "1", '"" @ "" invalid(/not @ "" invalid error not: true is not allowed for 1)'),
        ("the_error_of_unexpected_names_has_their_keyword", '{"properties":{},"additionalProperties":false}', '{"a":1}',
         '"" @ "" invalid(/additionalProperties @ "" invalid error additionalProperties: Additional properties are not allowed (\'a\' was unexpected))'),
        ("without_properties_one_name_is_not_fused", '{"additionalProperties":false,"required":["a"]}', "{}", '"" @ "" invalid(/additionalProperties @ "")(/required @ "" invalid' + required("a") + ")"),
        ("in_a_closed_object_a_repeated_name_is_not_fused", '{"properties":{},"additionalProperties":false,"required":["a","a"]}', "{}",
         '"" @ "" invalid(/additionalProperties @ "")(/required @ "" invalid' + required("a", "a") + ")"),
        ("members_names_and_keys_are_shown_in_byte_order",
         '{"additionalProperties":{},"dependencies":{"a":{},"b":[]},"dependentRequired":{"a":["x"],"b":["y"]},"propertyNames":{"const":"a"}}', '{"a":1,"b":2}',
         '"" @ "" invalid(/additionalProperties @ "" names ["a","b"](/additionalProperties @ /a)(/additionalProperties @ /b))(/dependencies @ ""(/dependencies/a @ "")(/dependencies @ ""))'
         '(/dependentRequired @ "" invalid(/dependentRequired @ "" invalid' + required("x") + ')(/dependentRequired @ "" invalid' + required("y") + "))"
         '(/propertyNames @ "" invalid(/propertyNames @ ""(/propertyNames/const @ ""))(/propertyNames @ "" invalid(/propertyNames/const @ "" invalid error const: "a" was expected)))'),
        ("a_negation_of_a_fraction_promises_no_text", '{"not":{"title":1.5}}', "1", '"" @ "" invalid(/not @ "" invalid error not: ~)'),
        ("a_false_schema_over_a_fraction_promises_no_text", "false", "1.5", '"" @ "" invalid error falseSchema: ~'),
    ):
        g.has_tree(name, schema, value, tree)
    return g


# ---- all keywords inside a member and a branch

# The value, and of each schema its keywords: the value of each, the child that it shows, and the faults that it finds, at the
# schema's own paths; V stands for the value, FALSE for the error of a false schema over it and NO for its line.
INSIDE = (
    ("each_keyword_that_accepts", {"b": 1, "c": "t"}, {
        "additionalProperties": (True, "", ()),
        "allOf": ([True], '(/allOf @ ""(/allOf/0 @ ""))', ()),
        "anyOf": ([True, False], '(/anyOf @ ""(/anyOf/0 @ ""))', ()),
        "dependencies": ({"b": {"type": "object"}, "c": ["b"]}, '(/dependencies @ ""(/dependencies/b @ ""(/dependencies/b/type @ ""))(/dependencies @ ""))', ()),
        "dependentRequired": ({"b": ["c"]}, '(/dependentRequired @ ""(/dependentRequired @ ""))', ()),
        "dependentSchemas": ({"b": True}, '(/dependentSchemas @ ""(/dependentSchemas/b @ ""))', ()),
        "else": (False, "", ()),
        "if": (True, '(/if @ ""(/if @ "")(/then @ ""))', ()),
        "not": (False, '(/not @ "")', ()),
        "oneOf": ([False, True], '(/oneOf @ ""(/oneOf/1 @ ""))', ()),
        "patternProperties": ({"^b": True}, '(/patternProperties @ "" names ["b"](/patternProperties/^b @ /b))', ()),
        "properties": ({"c": True}, '(/properties @ "" names ["c"](/properties/c @ /c))', ()),
        "propertyDependencies": ({"c": {"t": True}}, '(/propertyDependencies @ ""(/propertyDependencies/c/t @ ""))', ()),
        "propertyNames": ({"maxLength": 1}, '(/propertyNames @ ""(/propertyNames @ ""(/propertyNames/maxLength @ ""))(/propertyNames @ ""(/propertyNames/maxLength @ "")))', ()),
        "required": (["b"], '(/required @ "")', ()),
        "then": (True, "", ()),
        "type": ("object", '(/type @ "")', ()),
    }),
    ("each_keyword_that_refuses", {"b": 1, "c": "t"}, {
        "additionalProperties": (True, "", ()),
        "allOf": ([False], '(/allOf @ "" invalid(/allOf/0 @ ""FALSE))', ("NO/allOf/0",)),
        "anyOf": ([False], '(/anyOf @ "" invalid(/anyOf/0 @ ""FALSE))', ("V is not valid under any of the schemas listed in the 'anyOf' keyword @ \"\", /anyOf [{NO/anyOf/0;}]",)),
        "dependencies": ({"b": False, "c": ["x"]}, '(/dependencies @ "" invalid(/dependencies/b @ ""FALSE)(/dependencies @ "" invalid error required: "x" is a required property))',
                         ("NO/dependencies/b", '"x" is a required property @ "", /dependencies')),
        "dependentRequired": ({"b": ["y"]}, '(/dependentRequired @ "" invalid(/dependentRequired @ "" invalid error required: "y" is a required property))', ('"y" is a required property @ "", /dependentRequired',)),
        "dependentSchemas": ({"b": False}, '(/dependentSchemas @ "" invalid(/dependentSchemas/b @ ""FALSE))', ("NO/dependentSchemas/b",)),
        "else": (False, "", ("NO/else",)),
        "if": (False, '(/if @ "" invalid(/else @ ""FALSE))', ()),
        "not": (True, '(/not @ "" invalid error not: true is not allowed for V)', ('true is not allowed for V @ "", /not',)),
        "oneOf": ([False, False], '(/oneOf @ "" invalid(/oneOf/0 @ ""FALSE)(/oneOf/1 @ ""FALSE))', ("V is not valid under any of the schemas listed in the 'oneOf' keyword @ \"\", /oneOf [{NO/oneOf/0;}{NO/oneOf/1;}]",)),
        "patternProperties": ({"^b": False}, '(/patternProperties @ "" invalid(/patternProperties/^b @ /b invalid error falseSchema: False schema does not allow 1))', ("False schema does not allow 1 @ /b, /patternProperties/^b",)),
        "properties": ({"c": False}, '(/properties @ "" invalid(/properties/c @ /c invalid error falseSchema: False schema does not allow "t"))', ('False schema does not allow "t" @ /c, /properties/c',)),
        "propertyDependencies": ({"c": {"t": False}}, '(/propertyDependencies @ "" invalid(/propertyDependencies/c/t @ ""FALSE))', ("NO/propertyDependencies/c/t",)),
        "propertyNames": ({"const": "b"}, '(/propertyNames @ "" invalid(/propertyNames @ ""(/propertyNames/const @ ""))(/propertyNames @ "" invalid(/propertyNames/const @ "" invalid error const: "b" was expected)))',
                          ('"b" was expected @ "", /propertyNames/const',)),
        "required": (["z"], '(/required @ "" invalid error required: "z" is a required property)', ('"z" is a required property @ "", /required',)),
        "then": (True, "", ()),
        "type": ("null", '(/type @ "" invalid error type: V is not of type "null")', ('V is not of type "null" @ "", /type',)),
    }),
    ("too_many_branches_and_any_member_or_name", {"b": 1}, {
        "additionalProperties": (False, '(/additionalProperties @ "" invalid error falseSchema: False schema does not allow 1)', ('False schema does not allow 1 @ "", /additionalProperties',)),
        "oneOf": ([True, True, False], '(/oneOf @ "" invalid error oneOf: more than one subschema succeeded(/oneOf/0 @ "")(/oneOf/1 @ ""))',
                  ("V is valid under more than one of the schemas listed in the 'oneOf' keyword @ \"\", /oneOf [{}{}{NO/oneOf/2;}]",)),
        "propertyNames": (False, '(/propertyNames @ ""FALSE)', ("NO/propertyNames",)),
    }),
    ("a_choice_of_none_and_two_missing_names", {"b": 1}, {
        "anyOf": ([], '(/anyOf @ "" invalid)', ("V is not valid under any of the schemas listed in the 'anyOf' keyword @ \"\", /anyOf []",)),
        "oneOf": ([], '(/oneOf @ "" invalid)', ("V is not valid under any of the schemas listed in the 'oneOf' keyword @ \"\", /oneOf []",)),
        "properties": ({"b": {}}, '(/properties @ "" invalid(/properties/b @ /b)(/required @ "" invalid error required: "x" is a required property error required: "y" is a required property))', ()),
        "required": (["x", "y"], "", ('"x" is a required property @ "", /required', '"y" is a required property @ "", /required')),
    }),
    ("unexpected_members_and_a_missing_name", {"b": 1, "u": 2}, {
        "additionalProperties": (False, '(/additionalProperties @ "" invalid error additionalProperties: Additional properties are not allowed (\'u\' was unexpected)(/properties/b @ /b)'
                                 '(/required @ "" invalid error required: "x" is a required property))', ("Additional properties are not allowed ('u' was unexpected) @ \"\", /additionalProperties",)),
        "properties": ({"b": {}}, "", ()),
        "required": (["x"], "", ('"x" is a required property @ "", /required',)),
    }),
    ("matches_and_additional_members", {"m": 1, "x": 2, "y": 3}, {
        "additionalProperties": ({}, '(/additionalProperties @ "" names ["x","y"](/patternProperties/^m @ /m)(/additionalProperties @ /x)(/additionalProperties @ /y)(/patternProperties @ "" names ["m"]))', ()),
        "patternProperties": ({"^m": {}}, "", ()),
    }),
    ("declared_matching_and_additional_members", {"b": 1, "m": 2, "x": 3}, {
        "additionalProperties": ({"type": "null"}, '(/additionalProperties @ "" invalid(/properties/b @ /b)(/patternProperties/^m @ /m)(/additionalProperties @ /x invalid(/additionalProperties/type @ /x invalid error type: 3 is not of type "null")))',
                                 ('3 is not of type "null" @ /x, /additionalProperties/type',)),
        "patternProperties": ({"^m": {}}, "", ()),
        "properties": ({"b": {}}, "", ()),
    }),
)


def inside():
    g = Group("Rows_inside", "What keywords find and show where their schema is a branch of a member's.")
    for name, value, keywords in INSIDE:
        schema = {"properties": {"a": {"allOf": [{k: it[0] for k, it in keywords.items()}]}}}
        shown = compact(value)
        no = f'False schema does not allow {shown} @ "", '

        def placed(text):
            """A text whose paths are those of the schema alone."""
            text = text.replace("FALSE", f" invalid error falseSchema: False schema does not allow {shown}").replace("NO/", no + "/").replace("V is", shown + " is").replace("for V", "for " + shown)
            text = re.sub(r'(""|/[^ ()]*) @ (""|/[^ ()]*)(?=[ ()])', lambda it: "/properties/a/allOf/0%s @ /a%s" % tuple(p.strip('"') for p in it.groups()), text)
            return re.sub(r'@ (""|/\S*), /', lambda it: "@ /a%s, /properties/a/allOf/0/" % it[1].strip('"'), text)

        lines = [placed(line) for it in keywords.values() for line in it[2]]
        invalid, names = (" invalid", "") if lines else ("", ' names ["a"]')
        children = placed(f'("" @ ""{invalid}' + "".join(it[1] for it in keywords.values()) + ")")
        (g.fails(name, schema, {"a": value}, lines) if lines else g.holds(name, schema, {"a": value}))
        g.has_tree(name + "_shown", schema, {"a": value}, f'"" @ ""{invalid}(/properties @ ""{invalid}{names}(/properties/a @ /a{invalid}(/properties/a/allOf @ /a{invalid}{children})))')
    return g


# ---- kinds and instances


def faults():
    g = Group("Rows_faults", "Faults and malformations with their kinds and instances, and the contexts of `oneOf`.")
    none, many = g.schema("one_of_false", '{"oneOf":[false]}'), g.schema("one_of_three", '{"oneOf":[true,true,false]}')
    g.fails("where_no_branch_accepts_each_tells_what_it_finds", none, "1",
            ["1 is not valid under any of the schemas listed in the 'oneOf' keyword @ \"\", /oneOf [{False schema does not allow 1 @ \"\", /oneOf/0;}]"])
    g.fails("where_too_many_accept_each_tells_what_it_finds", many, "1",
            ["1 is valid under more than one of the schemas listed in the 'oneOf' keyword @ \"\", /oneOf [{}{}{False schema does not allow 1 @ \"\", /oneOf/2;}]"])
    shut = g.schema("closed", '{"properties":{},"additionalProperties":false}')
    g.cuts_to("the_first_of_two_unexpected_names_is_kept", shut, '{"a":1,"b":2}', ["Additional properties are not allowed ('a' was unexpected) @ \"\", /additionalProperties"])
    g.fails("beside_patterns_names_are_told", '{"patternProperties":{},"additionalProperties":false}', '{"a":1}',
            ["Additional properties are not allowed ('a' was unexpected) @ \"\", /additionalProperties"])
    g.has_keywords("faults_have_the_keywords_of_their_kinds",
                   '{"additionalProperties":false,"allOf":[false,{"oneOf":[true,true]}],"anyOf":[],"not":true,"oneOf":[],"properties":{},"propertyNames":{"maxLength":0},"required":["b"],"type":"null"}', '{"a":1}',
                   ["additionalProperties", "falseSchema", "oneOf", "anyOf", "not", "oneOf", "propertyNames", "required", "type"])
    g.cuts_to("a_choice_in_a_member_is_kept_with_its_branches", '{"properties":{"a":{"anyOf":[false]}}}', '{"a":1}',
              ["1 is not valid under any of the schemas listed in the 'anyOf' keyword @ /a, /properties/a/anyOf [{False schema does not allow 1 @ /a, /properties/a/anyOf/0;}]"])
    g.cuts_to("no_accepting_branch_is_kept_with_its_branches", none, "1",
              ["1 is not valid under any of the schemas listed in the 'oneOf' keyword @ \"\", /oneOf [{False schema does not allow 1 @ \"\", /oneOf/0;}]"])
    g.cuts_to("too_many_accepting_branches_are_kept", many, "1",
              ["1 is valid under more than one of the schemas listed in the 'oneOf' keyword @ \"\", /oneOf [{}{}{False schema does not allow 1 @ \"\", /oneOf/2;}]"])
    g.keeps("a_name_is_kept_with_the_fault_inside", '{"propertyNames":{"maxLength":0}}', '{"a":1}', ['PropertyNames of {"a":1} @ "", /propertyNames/maxLength {Leaf of "a" @ "", /propertyNames/maxLength}'])
    for name, schema, value, line in (
        ("no_accepting_branch", none, "1", 'OneOfNotValid of 1 @ "", /oneOf'),
        ("too_many_accepting_branches", many, "1", 'OneOfMultipleValid of 1 @ "", /oneOf'),
        ("no_choice", '{"anyOf":[false]}', "1", 'AnyOf of 1 @ "", /anyOf'),
        ("a_negation", '{"not":true}', "1", 'Not of 1 @ "", /not'),
        ("a_name_keeps_the_fault_inside", '{"propertyNames":{"minLength":1}}', '{"":1}', 'PropertyNames of {"":1} @ "", /propertyNames/minLength {Leaf of "" @ "", /propertyNames/minLength}'),
        ("a_fault_inside_is_of_the_name", '{"propertyNames":{"not":true}}', '{"a":1}', 'PropertyNames of {"a":1} @ "", /propertyNames/not {Not of "a" @ "", /propertyNames/not}'),
        ("names_that_are_refused_are_told_of_the_object", '{"propertyNames":false}', '{"a":1}', 'FalseSchema of {"a":1} @ "", /propertyNames'),
        ("alone_it_is_told_at_the_object", '{"additionalProperties":false}', '{"a":1}', 'FalseSchema of 1 @ "", /additionalProperties'),
        ("a_false_member", '{"properties":{"a":false}}', '{"a":1}', 'FalseSchema of 1 @ /a, /properties/a'),
        ("an_unexpected_name_beside_patterns", '{"patternProperties":{},"additionalProperties":false}', '{"a":1}', 'AdditionalProperties of {"a":1} @ "", /additionalProperties'),
        ("two_unexpected_names_are_one_fault", shut, '{"a":1,"b":2}', 'AdditionalProperties of {"a":1,"b":2} @ "", /additionalProperties'),
        ("a_dependent_name_is_told_at_the_keyword", '{"dependentRequired":{"a":["b"]}}', '{"a":1}', 'Required of {"a":1} @ "", /dependentRequired'),
        ("a_name_of_a_dependency_is_told_at_the_keyword", '{"dependencies":{"a":["b"]}}', '{"a":1}', 'Required of {"a":1} @ "", /dependencies'),
        ("a_required_name_is_told_of_the_object", '{"required":["a"]}', "{}", 'Required of {} @ "", /required'),
        ("a_leaf_is_told_of_the_value", '{"minimum":5}', "1", 'Leaf of 1 @ "", /minimum'),
    ):
        g.tells(name, schema, value, [line])
    for name, schema, line in (
        ("a_name_that_is_refused", '{"$ref":1}', 'Unsupported of 1 @ "", /$ref'),
        ("an_item_that_is_no_text", '{"required":[1,2]}', 'SingleType of 1 @ "", /required'),
        ("a_repeated_text", '{"dependentRequired":{"a":["b","c","b"]}}', 'UniqueItems of ["b","c","b"] @ "", /dependentRequired/a'),
        ("a_pattern_that_is_refused", '{"patternProperties":{"a(":{}}}', 'Regex of "a(" @ "", /patternProperties/a('),
        ("a_value_that_a_leaf_refuses", '{"type":5}', 'LeafRefused of 5 @ "", /type'),
        ("a_value_that_is_no_schema", '{"not":5}', 'MultipleTypes of 5 @ "", /not'),
        ("declared_names_in_a_list", '{"properties":[]}', 'SingleType of [] @ "", /properties'),
    ):
        g.is_refused_as(name, schema, [line])
    for name, schema, value, yes in (
        ("a_choice_over_a_whole_number_promises_its_text", '{"anyOf":[false]}', "1", True),
        ("a_choice_over_a_fraction_promises_no_text", '{"anyOf":[false]}', "1.5", False),
        ("no_accepting_branch_over_a_fraction_promises_no_text", none, "1.5", False),
        ("too_many_accepting_branches_over_a_fraction_promise_no_text", many, "1.5", False),
        ("a_negation_over_a_fraction_promises_no_text", '{"not":true}', "1.5", False),
        ("a_false_schema_over_a_fraction_promises_no_text", "false", "1.5", False),
        ("a_name_of_an_object_with_a_fraction_promises_its_text", '{"propertyNames":{"not":true}}', '{"a":1.5}', True),
        ("a_name_whose_own_fault_prints_a_fraction_promises_no_text", '{"propertyNames":{"not":{"title":1.5}}}', '{"a":1}', False),
    ):
        g.promises(name, schema, value, yes)
    g.promises_its_refusal("a_refused_name_with_a_fraction_promises_its_text", '{"$ref":1.5}')
    g.all_promise("over_whole_numbers_each_kind_promises_its_text", ((none, "1"), (many, "1"), ('{"not":true}', "1"), ("false", "1"), ('{"minimum":5}', "1"), (shut, '{"a":1}'), ('{"required":["a"]}', "{}")))
    g.all_promise("over_a_fraction_names_and_leaves_promise_their_texts", (('{"type":"object"}', "1.5"), (shut, '{"a":1.5}'), ('{"required":["a"]}', '{"b":1.5}'), ('{"dependentRequired":{"b":["a"]}}', '{"b":1.5}')))
    g.all_promise_their_refusals("refusals_without_a_fraction_promise_their_texts", ('{"properties":5}', '{"not":5}', '{"dependentRequired":{"a":["b","b"]}}', '{"patternProperties":{"(":{}}}', '{"type":5}', '{"$ref":1}'), True)
    g.all_promise_their_refusals("refusals_that_print_a_fraction_promise_no_text", ('{"properties":1.5}', '{"not":1.5}', '{"dependentRequired":{"a":["b","b",1.5]}}', '{"type":1.5}', '{"required":[1.5]}'), False)
    g.leaf_is_refused_as("the_name_of_a_leaf_is_told_as_json", 'a"b', "5", '5 is not a value for "a\\"b"')
    return g


# ---- the bench


def bench():
    g = Group("Rows_bench", "The leaves of the bench.")
    for kind, v in (("null", "null"), ("boolean", "true"), ("integer", "-5"), ("number", "-5"), ("string", '"a"'), ("array", "[1]"), ("object", "{}")):
        g.holds("a_value_of_kind_" + kind, {"type": kind}, v)
    kinds = ("null", "boolean", "integer", "number", "string", "array", "object")
    for own, v in (("null", "null"), ("boolean", "true"), ("integer", "-5"), ("string", '"a"'), ("array", "[1]"), ("object", "{}")):
        others = [{"type": kind} for kind in kinds if kind != own and (own, kind) != ("integer", "number")]
        g.holds("a_value_of_kind_" + own + "_is_of_no_other", {"not": {"anyOf": others}}, v)
    g.holds("a_fraction_is_a_number", '{"type":"number"}', "1.5")
    g.fails("a_fraction_is_no_integer", '{"type":"integer"}', "1.5", ['value is not of type "integer" @ "", /type'])
    g.fails("a_text_shows_no_fraction", '{"type":"object"}', '["a",1.5]', ['value is not of type "object" @ "", /type'])
    g.holds("a_constant_number", '{"const":-3}', "-3")
    g.fails("another_number", '{"const":-3}', "3", ['-3 was expected @ "", /const'])
    g.fails("a_text_for_a_number", '{"const":3}', '"3"', ['3 was expected @ "", /const'])
    g.holds("a_constant_text", '{"const":"a/b"}', '"a/b"')
    g.fails("another_text", '{"const":"a"}', "null", ['"a" was expected @ "", /const'])
    g.holds("the_minimum_itself", '{"minimum":-3}', "-3")
    g.fails("less_than_the_minimum", '{"minimum":-3}', "-4", ['-4 is less than the minimum of -3 @ "", /minimum'])
    g.holds("the_maximum_itself", '{"maximum":18446744073709551615}', "18446744073709551615")
    g.fails("greater_than_the_maximum", '{"maximum":-3}', "0", ['0 is greater than the maximum of -3 @ "", /maximum'])
    g.holds("a_fraction_is_no_whole_number", '{"minimum":3,"maximum":1,"multipleOf":7}', "2.5")
    g.holds("a_text_is_no_whole_number", '{"minimum":3,"maximum":1,"multipleOf":7}', '"2"')
    g.holds("a_multiple_below_zero", '{"multipleOf":3}', "-6")
    g.fails("no_multiple_below_zero", '{"multipleOf":3}', "-7", ['-7 is not a multiple of 3 @ "", /multipleOf'])
    g.holds("two_characters_of_four_bytes", '{"minLength":2,"maxLength":2}', '"\\u00e9\\u00e9"')
    g.refuses("one_character_of_two_bytes", '{"minLength":2}', '"\\u00e9"')
    g.fails("three_characters", '{"maxLength":2}', '"abc"', ['"abc" is longer than 2 characters @ "", /maxLength'])
    g.holds("a_number_has_no_length", '{"minLength":2,"maxLength":2}', "1")
    for n, s in (("kinds_have_names", '{"type":["string"]}'), ("a_constant_object", '{"const":{}}'), ("a_fraction_as_minimum", '{"minimum":1.5}'), ("a_text_as_maximum", '{"maximum":"1"}'),
                 ("multiples_of_zero", '{"multipleOf":0}'), ("a_length_below_zero", '{"minLength":-1}'), ("kind_is_unknown", '{"type":"float"}')):
        k = s.split('"')[1]
        value = s[s.index(":") + 1:-1]
        if "." not in value:
            g.is_refused(n, s, ['%s is not a value for "%s" @ "", /%s' % (value, k, k)])
    g.is_refused("null_as_constant", '{"const":null}', ['null is not a value for "const" @ "", /const'])
    g.all_promise_their_refusals("no_leaf_takes_a_fraction", [{k: 1.5} for k in ("const", "minimum", "maximum", "multipleOf", "minLength", "maxLength")], False)
    g.all_build("each_kind_builds", [{"type": kind} for kind in kinds])
    g.all_build("constants_and_limits_build", [{k: n} for k in ("const", "minimum", "maximum") for n in (-1, 0, 1, 2**64 - 1)] + [{"const": ""}, {"multipleOf": 1}, {"minLength": 0}, {"maxLength": 0}])
    g.all_build("bodies_build_alone_and_behind_slow", [{"patternProperties": {p: {}}} for p in ("x", "x$", "\\.", "(slow)x", "(slow)\\.")])
    g.fails("a_greater_number_below_zero", '{"const":-3}', "-2", ['-3 was expected @ "", /const'])
    g.fails("a_text_that_begins_so", '{"const":"a"}', '"ab"', ['"a" was expected @ "", /const'])
    g.fails("a_text_in_capitals", '{"const":"a"}', '"A"', ['"a" was expected @ "", /const'])
    g.holds("a_number_past_the_signed_ones", '{"minimum":5}', "9223372036854775808")
    g.holds("zero_is_a_multiple", '{"multipleOf":3}', "0")
    g.holds("one_character_of_four_bytes", '{"maxLength":1}', '"\\ud83d\\ude00"')
    g.holds("an_unknown_keyword_is_ignored", '{"enum":[]}', "1")
    for n, p in (("a_class", "[a-z]"), ("a_slow_nothing", "(slow)"), ("a_slow_anchor", "(slow)^a"), ("an_empty_pattern", ""), ("two_anchors", "^$"), ("a_slow_end", "(slow)a$")):
        g.is_refused(n + "_is_refused", {"patternProperties": {p: {}}}, ['"%s" is not a "regex" @ "", /patternProperties/%s' % (p, p)])
    g.says_of("the_end_is_not_the_start", "a$", "ab", "unmatched", "unmatched")
    g.says_of("the_end_is_the_end", "a$", "ba", "matched", "matched")
    g.says_of("the_start_is_the_start", "^a", "ba", "unmatched", "unmatched")
    g.says_of("both_ends_are_the_whole", "^a$", "ab", "unmatched", "unmatched")
    g.says_of("the_end_is_behind_a_line_feed", "a$", "a\n", "unmatched", "unmatched")
    g.says_of("a_test_needs_no_matcher", "^(a|b)$", "b", "unmatched", "matched")
    g.fails("a_body_stands_anywhere", '{"patternProperties":{"b":false}}', '{"abc":1,"ac":2}', ["False schema does not allow 1 @ /abc, /patternProperties/b"])
    g.fails("an_escaped_body_stands_anywhere", '{"patternProperties":{"\\\\.":false}}', '{"a.c":1,"abc":2}', ["False schema does not allow 1 @ /a.c, /patternProperties/\\."])
    return g


# ---- vectors: names


def names():
    g = Group("Vectors_names", "Names that are equal and names that differ, at each length and place where a comparison could go wrong.")
    same = [("names_of_13_bytes", "abcdefghijklX"), ("names_of_12_bytes", "abcdefghijkl"), ("names_of_4_bytes", "abcd"), ("empty_names", ""), ("names_beyond_ascii", "café-résumé-naïve")]
    pairs = [(n, k, k) for n, k in same] + [
        ("the_last_byte_of_13", "abcdefghijklX", "abcdefghijklY"), ("the_last_byte_of_12", "abcdefghijkl", "abcdefghijkL"),
        ("bytes_5_to_8", "abcdEFGHijkl", "abcdefghijkl"), ("the_last_byte_of_4", "abcd", "abce"), ("one_byte_more", "abcd", "abcde"),
        ("the_empty_name", "", "a"), ("a_letter_beyond_ascii", "café-résumé-naïve", "café-rÉsumé-naïve")]
    for n, d, k in pairs:
        equal = d == k
        say = g.holds, g.refuses
        word = "in_equal_" if equal else "at_"
        for label, schema, value, valid in (
            ("a_false_schema", {"properties": {d: False, "p": True}}, {k: 1, "p": 1}, not equal),
            ("a_required_false_schema", {"properties": {d: False, "p": True}, "required": [d, "p"]}, {k: 1, "p": 1}, False),
            ("a_required_true_schema", {"properties": {d: True, "p": True}, "required": [d, "p"]}, {k: 1, "p": 1}, equal),
            ("a_declared_or_an_additional_schema", {"properties": {d: {"type": "integer"}}, "additionalProperties": {"type": "string"}}, {k: 1}, equal),
        ):
            say[0 if valid else 1](word + n + "_" + label, schema, value)
    return g


# ---- vectors: members


def members():
    g = Group("Vectors_members", "Declared names, patterns and additional members in all their combinations, and other object keywords.")
    g.fails("dependencies_list_names", '{"dependencies":{"bar":["foo"]}}', '{"bar":1}', ['"foo" is a required property @ "", /dependencies'])
    g.fails("dependencies_hold_schemas", '{"dependencies":{"bar":{"type":"string"}}}', '{"bar":1}', ['{"bar":1} is not of type "string" @ "", /dependencies/bar/type'])
    dep = g.schema("a_requires_b_and_c", '{"dependentRequired":{"a":["b","c"]}}')
    g.fails("both_dependent_names_are_missing", dep, '{"a":1}', ['"%s" is a required property @ "", /dependentRequired' % n for n in "bc"])
    g.holds("both_dependent_names_are_there", dep, '{"a":1,"b":2,"c":3}')
    g.holds("without_the_key_nothing_is_required", dep, '{"b":2}')
    g.holds("an_array_has_no_key", dep, "[1]")
    short = g.schema("short_names", '{"propertyNames":{"maxLength":3}}')
    g.holds("three_short_names", short, '{"a":1,"bc":1,"def":1}')
    g.fails("one_long_name", short, '{"ab":1,"cdef":1}', ['"cdef" is longer than 3 characters @ "", /propertyNames/maxLength'])
    blank = g.schema("names_without_white_space", '{"additionalProperties":false,"patternProperties":{"^\\\\S*$":{"type":"integer"}}}')
    g.holds("a_name_without_white_space", blank, '{"ab":1}')
    g.refuses("a_name_with_white_space", blank, '{"a b":1}')
    g.refuses("a_wrong_value_without_white_space", blank, '{"ab":"x"}')

    def without(s, k):
        return {a: b for a, b in s.items() if a != k}

    s = {"closed": CLOSED, "closed_patterns": without(CLOSED, "properties"), "closed_foo": {"additionalProperties": False, "properties": {"foo": {"type": "string"}}}}
    for n, b in (("typed_foo", "closed_foo"), ("typed", "closed"), ("typed_patterns", "closed_patterns")):
        s[n] = {**s[b], "additionalProperties": {"type": "integer"}}
    for n, v in s.items():
        g.schema(n, v)
    errors = {"m": ("4 is less than the minimum of 5", "/patternProperties/^bar/minimum"), "x": ("11 is greater than the maximum of 10", "/patternProperties/spam$/maximum"),
              "f": ('3 is not of type "string"', "/properties/foo/type"), "u": ("Additional properties are not allowed ('faz' was unexpected)", "/additionalProperties"),
              "i": ('"a" is not of type "integer"', "/additionalProperties/type")}
    every, patterned = list(s), ["closed", "closed_patterns", "typed", "typed_patterns"]
    foo, both = ["closed", "closed_foo", "typed_foo", "typed"], ["closed", "typed"]
    shut, typed = ["closed", "closed_patterns", "closed_foo"], ["typed_foo", "typed", "typed_patterns"]
    for label, value, names, found in (
        ("an_array", "[1]", every, ""), ("no_members", "{}", every, ""),
        ("a_right_foo", '{"foo":"a"}', foo, ""), ("a_wrong_foo", '{"foo":3}', foo, "f/foo"),
        ("a_right_bar_and_spam", '{"bar":6,"spam":7}', patterned, ""), ("a_right_barspam", '{"barspam":7}', patterned, ""),
        ("a_low_bar", '{"bar":4}', patterned, "m/bar"), ("a_high_spam", '{"spam":11}', patterned, "x/spam"),
        ("a_low_barspam", '{"barspam":4}', patterned, "m/barspam"), ("a_high_barspam", '{"barspam":11}', patterned, "x/barspam"),
        ("a_wrong_foo_and_a_low_bar", '{"foo":3,"bar":4}', both, "f/foo m/bar"),
        ("a_faz_that_is_unexpected", '{"faz":"a"}', shut, 'u""'), ("a_faz_that_is_no_integer", '{"faz":"a"}', typed, "i/faz"),
        ("a_right_foo_and_a_low_bar", '{"foo":"a","bar":4}', ["typed_foo"], ""), ("a_low_bar_and_a_foo_that_is_no_integer", '{"foo":"a","bar":4}', ["typed_patterns"], "i/foo m/bar"),
        ("one_fault_of_each_kind", '{"bar":4,"spam":11,"foo":3,"faz":"a","fam":42}', ["typed"], "m/bar x/spam f/foo i/faz"),
    ):
        for n in names:
            lines = [f"{errors[w[0]][0]} @ {w[1:]}, {errors[w[0]][1]}" for w in found.split()]
            name = n + "_on_" + label
            (g.fails(name, n, value, lines) if lines else g.holds(name, n, value))

    two = g.schema("two_required", '{"properties":{"a":{"type":"integer"},"b":{"type":"string"}},"required":["a","b"]}')
    g.holds("a_text_requires_nothing", two, '"string"')
    g.refuses("one_of_two_is_missing", two, '{"a":1,"c":3}')
    g.refuses("one_of_two_is_missing_among_300_others", two, {"b": "x", **{"m%03d" % i: 1 for i in range(300)}})
    g.fails("the_missing_one_and_the_wrong_one", two, '{"b":1}', ['"a" is a required property @ "", /required', '1 is not of type "string" @ /b, /properties/b/type'])
    z = g.schema("one_declared_of_two", '{"properties":{"a":{"type":"integer"},"b":{}},"required":["a","z"]}')
    g.holds("a_required_name_is_undeclared", z, '{"a":1,"z":2}')
    g.refuses("the_undeclared_name_is_missing", z, '{"a":1}')
    g.refuses("the_declared_value_is_wrong", z, '{"a":"x","z":2}')
    five = g.schema("five_arrays", {"additionalProperties": False, "required": ["id"], "properties": {"id": {"type": "integer"}, **{k: {"type": "array"} for k in "abcde"}}})
    g.holds("the_required_one_alone", five, '{"id":1}')
    g.holds("the_required_one_and_an_array", five, '{"a":[],"id":1}')
    g.refuses("an_object_for_an_array", five, '{"a":{},"id":1}')
    g.refuses("a_text_for_the_required_one", five, '{"a":[],"id":"x"}')
    g.refuses("an_unexpected_member", five, '{"a":[],"id":1,"zzz":1}')
    g.refuses("the_required_one_is_missing", five, '{"a":[]}')
    return g


def refused_patterns():
    g = Group("Vectors_patterns", "Patterns that the matcher refuses, beside each neighbour.")
    many = {"p%d" % i: {} for i in range(15)}
    for label, pattern in (("an_open_group", "a("), ("a_look_behind", "(?<=a)b")):
        for name, more, others in (
            ("alone", {}, {}), ("beside_a_prefix", {}, {"^x": {}}), ("beside_true", {"additionalProperties": True}, {}),
            ("beside_false", {"additionalProperties": False}, {}), ("beside_a_schema", {"additionalProperties": {"type": "integer"}}, {}),
            ("beside_false_and_a_name", {"additionalProperties": False, "properties": {"foo": {}}}, {}),
            ("beside_a_schema_and_a_name", {"additionalProperties": {"type": "integer"}, "properties": {"foo": {}}}, {}),
            ("beside_false_and_15_names", {"additionalProperties": False, "properties": many}, {}),
            ("beside_a_schema_and_15_names", {"additionalProperties": {"type": "integer"}, "properties": many}, {}),
        ):
            g.is_refused(label + "_" + name, {"patternProperties": {pattern: {}, **others}, **more},
                         [f'"{pattern}" is not a "regex" @ "", /patternProperties/{pattern}'])
    return g


if __name__ == "__main__":
    for group in (properties(), patterns(), branches(), dependencies(), refusals(), costs(), evaluation(), trees(), inside(), faults(), bench(), names(), members(), refused_patterns()):
        group.write()
