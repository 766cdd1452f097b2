#!/usr/bin/env python3
"""Writes the worked rows of documents as facts that the checker computes.

Run it in the crate's folder: `python3 tools/rows.py`, and then `rt fmt`. It writes specs/Rows_*.antt and their proofs.

The schemas and values of `arrays`, `contains` and `references` are those of JSON Schema's own test suite, as Debian's
package `json-schema-test-suite` has it for draft 7, with today's names: a list of schemas is `prefixItems`, what is behind it
`items`, and `definitions` is `$defs`. Those of `bounds` follow JSON Schema 2020-12 Validation, 6.4.4 and 6.4.5.
"""
import importlib.util
import os

PATH = os.path.join(os.path.dirname(os.path.abspath(__file__)), "../../olk_spec/tools/rows.py")
spec = importlib.util.spec_from_file_location("rows_of_the_layer", PATH)
layer = importlib.util.module_from_spec(spec)
spec.loader.exec_module(layer)

PROOFS = {"Holds": "λ u. (refl, refl, refl)", "Fails": "λ u. (refl, refl, refl)", "Has_tree": "λ u. refl", "Asks": "λ u. refl", "Is_refused": "refl", "Builds": "refl"}


# So many references are followed, one behind another.
REFERENCE_LIMIT = 16


class Group(layer.Group):
    def write(self):
        schemas = "".join(f"\nabbrev pub {n} : Quoted\n{n} = {layer.quote(t)}\n" for n, t in self.schemas.items())
        forms = ", ".join(sorted({form for _, form, _ in self.rows}))
        with open(f"specs/{self.module}.antt", "w") as out:
            out.write(
                f"-- {self.title}\n"
                "use Rattle.std.specs.Prelude.{◌∷◌, []}\n"
                + ("use Prim.Native.String.{String as Quoted}\n" if schemas else "")
                + f"use Rattle.olk_document_spec.specs.Answers.{{{forms}}}\n{schemas}"
                f"\npub record {self.module} : Type 0 where\n" + "".join(f"  pub {n} : {f} {w}\n" for n, f, w in self.rows)
            )
        fact = self.module.lower()
        with open(f"proofs/{self.module}.antt", "w") as out:
            out.write(
                "use Rattle.std.proofs.Common.{refl}\n"
                "use Rattle.olk_document_spec.proofs.Computed.{computed}\n"
                f"use Rattle.olk_document_spec.specs.{self.module}.{{{self.module}}}\n"
                f"\npub {fact} : {self.module}\nunfolding computed\n{fact} = record {{\n"
                + "".join(f"  {name} = {PROOFS[form]};\n" for name, form, _ in self.rows) + "}\n"
            )
        print(self.module, len(self.rows))


def arrays():
    g = Group("Rows_arrays", "`prefixItems` and `items`.")
    integers = g.schema("integers", '{"items":{"type":"integer"}}')
    g.holds("each_item_is_right", integers, "[1,2,3]")
    g.fails("an_item_is_wrong", integers, '[1,"x"]', ['"x" is not of type "integer" @ /1, /items/type'])
    g.holds("an_object_has_no_items", integers, '{"foo":"bar"}')
    g.holds("members_named_as_positions_are_no_items", integers, '{"0":"invalid","length":1}')
    two = g.schema("two_schemas", '{"prefixItems":[{"type":"integer"},{"type":"string"}]}')
    g.holds("each_of_two_is_right", two, '[1,"foo"]')
    g.fails("each_of_two_is_wrong", two, '["foo",1]',
            ['"foo" is not of type "integer" @ /0, /prefixItems/0/type', '1 is not of type "string" @ /1, /prefixItems/1/type'])
    g.holds("an_item_that_is_absent_is_not_asked", two, "[1]")
    g.holds("an_item_behind_the_schemas_is_not_asked", two, '[1,"foo",true]')
    g.holds("no_item_is_asked", two, "[]")
    g.holds("members_named_as_positions_are_no_items_of_two", two, '{"0":"invalid","1":"valid","length":2}')
    g.holds("true_accepts_each", '{"items":true}', '[1,"foo",true]')
    g.fails("false_refuses_each", '{"items":false}', '[1,"foo",true]',
            ["False schema does not allow 1 @ /0, /items", 'False schema does not allow "foo" @ /1, /items', "False schema does not allow true @ /2, /items"])
    g.holds("false_accepts_no_items", '{"items":false}', "[]")
    g.holds("true_accepts_the_first", '{"prefixItems":[true,false]}', "[1]")
    g.fails("false_refuses_the_second", '{"prefixItems":[true,false]}', '[1,"foo"]', ['False schema does not allow "foo" @ /1, /prefixItems/1'])
    behind = g.schema("integers_behind_one", '{"prefixItems":[{}],"items":{"type":"integer"}}')
    g.holds("items_is_asked_behind_the_first", behind, "[null,2,3,4]")
    g.fails("an_item_behind_the_first_is_wrong", behind, '[null,2,3,"foo"]', ['"foo" is not of type "integer" @ /3, /items/type'])
    closed = g.schema("three_at_most", '{"prefixItems":[{},{},{}],"items":false}')
    g.holds("fewer_than_three", closed, "[1,2]")
    g.holds("three", closed, "[1,2,3]")
    g.fails("more_than_three", closed, "[1,2,3,4]", ["False schema does not allow 4 @ /3, /items"])
    g.fails("items_of_items", '{"items":{"items":{"type":"integer"}}}', '[[1],["x"]]', ['"x" is not of type "integer" @ /1/0, /items/items/type'])
    g.fails("items_of_a_member", '{"properties":{"tags":{"items":{"type":"string"}}}}', '{"tags":["a",5]}', ['5 is not of type "string" @ /tags/1, /properties/tags/items/type'])
    g.fails("an_eleventh_item", '{"items":{"maximum":0}}', "[0,0,0,0,0,0,0,0,0,0,1]", ["1 is greater than the maximum of 0 @ /10, /items/maximum"])
    g.has_tree("trees_of_items", behind, "[null,2]",
               '"" @ ""(/items @ ""(/items @ /1(/items/type @ /1)))(/prefixItems @ ""(/prefixItems/0 @ /0))')
    g.has_tree("a_wrong_item_is_shown", integers, '["x"]',
               '"" @ "" invalid(/items @ "" invalid(/items @ /0 invalid(/items/type @ /0 invalid error type: "x" is not of type "integer")))')
    g.asks("items_ask_for_each_item", '{"items":{"patternProperties":{"a":{}}}}', '[{"a":1,"b":1},{"a":1}]', 3)
    return g


def contains():
    g = Group("Rows_contains", "`contains`, `minContains` and `maxContains`.")
    five = g.schema("five_or_more", '{"contains":{"minimum":5}}')
    for name, value in (("the_last_is_contained", "[3,4,5]"), ("another_is_contained", "[3,4,6]"), ("two_are_contained", "[3,4,5,6]"), ("an_object_contains_what_it_likes", "{}")):
        g.holds(name, five, value)
    none = "None of %s are valid under the given schema @ \"\", /contains"
    g.fails("none_is_contained", five, "[2,3,4]", [none % "[2,3,4]"])
    g.fails("no_items_contain_nothing", five, "[]", [none % "[]"])
    constant = g.schema("a_five", '{"contains":{"const":5}}')
    g.holds("a_five_is_contained", constant, "[3,4,5]")
    g.holds("two_fives_are_contained", constant, "[3,4,5,5]")
    g.fails("no_five_is_contained", constant, "[1,2,3,4]", [none % "[1,2,3,4]"])
    g.holds("any_item_is_contained", '{"contains":true}', '["foo"]')
    g.fails("no_items_contain_no_item", '{"contains":true}', "[]", [none % "[]"])
    g.fails("false_is_never_contained", '{"contains":false}', '["foo"]', [none % '["foo"]'])
    g.fails("of_a_fraction_no_digits_are_promised", '{"contains":false}', "[1.5]", [none % "value"])
    g.has_tree("what_is_not_contained_is_shown", constant, "[1]", '"" @ "" invalid(/contains @ "" invalid error contains: None of [1] are valid under the given schema)')
    g.asks("contains_asks_each_item", '{"contains":{"patternProperties":{"a":{}}}}', '[{"a":1},{"a":1,"b":1}]', 3)
    return g


def bounds():
    g = Group("Rows_bounds", "How many items `contains` is to accept.")
    none = "None of %s are valid under the given schema @ \"\", /contains"
    for label, least, most, right, wrong in (
        ("one_or_more", 1, None, ("[1]", "[1,2]", "[1,1]"), ("[]", "[2]")),
        ("two_or_more", 2, None, ("[1,1]", "[1,1,1]", "[1,2,1]"), ("[]", "[1]", "[1,2]")),
        ("none_or_more", 0, None, ("[]", "[2]", "[1]"), ()),
        ("one_at_most", None, 1, ("[1]", "[1,2]"), ("[]", "[1,1]", "[1,2,1]")),
        ("none_or_one", 0, 1, ("[]", "[1]"), ("[1,1]",)),
        ("one_to_three", 1, 3, ("[1]", "[1,1,1]"), ("[]", "[1,1,1,1]")),
        ("three_and_one_at_most", 3, 1, (), ("[]", "[1]", "[1,1,1]")),
    ):
        schema = {"contains": {"const": 1}}
        if least is not None:
            schema["minContains"] = least
        if most is not None:
            schema["maxContains"] = most
        name = g.schema(label, schema)
        for n, value in enumerate(right):
            g.holds(f"{label}_holds_{n}", name, value)
        for n, value in enumerate(wrong):
            g.fails(f"{label}_fails_{n}", name, value, [none % value])
    g.holds("least_alone_says_nothing", '{"minContains":1}', "[]")
    g.holds("most_alone_says_nothing", '{"maxContains":1}', "[1,2]")
    g.holds("bounds_ask_nothing_of_an_object", '{"contains":{"const":1},"minContains":2}', '{"a":1}')
    return g


def references():
    g = Group("Rows_references", "`$ref`.")
    member = g.schema("to_a_member", '{"properties":{"foo":{"type":"integer"},"bar":{"$ref":"#/properties/foo"}}}')
    g.holds("what_is_referred_to_is_right", member, '{"bar":3}')
    g.fails("what_is_referred_to_is_wrong", member, '{"bar":true}', ['true is not of type "integer" @ /bar, /properties/foo/type'])
    item = g.schema("to_an_item", '{"prefixItems":[{"type":"integer"},{"$ref":"#/prefixItems/0"}]}')
    g.holds("both_items_are_right", item, "[1,2]")
    g.fails("the_item_that_refers_is_wrong", item, '[1,"foo"]', ['"foo" is not of type "integer" @ /1, /prefixItems/0/type'])
    escaped = g.schema("with_escapes", '{"tilda~field":{"type":"integer"},"slash/field":{"type":"integer"},"properties":{"tilda":{"$ref":"#/tilda~0field"},"slash":{"$ref":"#/slash~1field"}}}')
    g.fails("a_slash_is_escaped", escaped, '{"slash":"aoeu"}', ['"aoeu" is not of type "integer" @ /slash, /slash~1field/type'])
    g.fails("a_tilda_is_escaped", escaped, '{"tilda":"aoeu"}', ['"aoeu" is not of type "integer" @ /tilda, /tilda~0field/type'])
    g.holds("a_slash_names_an_integer", escaped, '{"slash":123}')
    g.holds("a_tilda_names_an_integer", escaped, '{"tilda":123}')
    nested = g.schema("one_behind_another", '{"$defs":{"a":{"type":"integer"},"b":{"$ref":"#/$defs/a"},"c":{"$ref":"#/$defs/b"}},"$ref":"#/$defs/c"}')
    g.holds("behind_two_others_it_is_right", nested, "5")
    g.fails("behind_two_others_it_is_wrong", nested, '"a"', ['"a" is not of type "integer" @ "", /$defs/a/type'])
    beside = g.schema("beside_a_keyword", '{"$defs":{"reffed":{"type":"string"}},"properties":{"foo":{"$ref":"#/$defs/reffed","maxLength":2}}}')
    g.holds("both_hold", beside, '{"foo":"ab"}')
    g.fails("the_keyword_beside_it_is_asked", beside, '{"foo":"abc"}', ['"abc" is longer than 2 characters @ /foo, /properties/foo/maxLength'])
    g.fails("it_is_asked_beside_a_keyword", beside, '{"foo":5}', ['5 is not of type "string" @ /foo, /$defs/reffed/type'])
    chain = g.schema("as_many_as_may_be", references_in_a_chain(REFERENCE_LIMIT, False))
    g.fails("behind_as_many_as_may_be_it_is_wrong", chain, "1", [f'False schema does not allow 1 @ "", /$defs/{REFERENCE_LIMIT}'])
    g.holds("a_tilde_alone_names_no_place", '{"$ref":"#/a~b","a~b":false}', "1")
    g.holds("a_tilde_at_the_end_names_no_place", '{"$ref":"#/a~","a~":false}', "1")
    g.holds("a_position_has_no_zero_before_it", '{"$ref":"#/prefixItems/00","prefixItems":[false]}', "1")
    g.fails("the_empty_name", '{"$ref":"#/","":false}', "1", ['False schema does not allow 1 @ "", /'])
    g.holds("a_percent_sign_names_no_place", '{"$ref":"#/a%b","a%b":false}', "1")
    named = g.schema("a_member_of_that_name", '{"properties":{"$ref":{"type":"string"}}}')
    g.holds("a_member_of_that_name_is_right", named, '{"$ref":"a"}')
    g.fails("a_member_of_that_name_is_wrong", named, '{"$ref":2}', ['2 is not of type "string" @ /$ref, /properties/$ref/type'])
    g.holds("to_true", '{"$ref":"#/$defs/bool","$defs":{"bool":true}}', '"foo"')
    g.fails("to_false", '{"$ref":"#/$defs/bool","$defs":{"bool":false}}', '"foo"', ['False schema does not allow "foo" @ "", /$defs/bool'])
    tags = g.schema("of_each_item", '{"properties":{"tags":{"items":{"$ref":"#/$defs/t"}}},"$defs":{"t":{"type":"string"}}}')
    g.fails("an_item_is_told_at_the_place_that_is_named", tags, '{"tags":["a",5]}', ['5 is not of type "string" @ /tags/1, /$defs/t/type'])
    g.has_tree("the_tree_of_the_place_that_is_named", '{"$ref":"#/$defs/a","$defs":{"a":{"type":"string"}}}', "5",
               '"" @ "" invalid(/$ref @ "" invalid(/$defs/a @ "" invalid(/$defs/a/type @ "" invalid error type: 5 is not of type "string")))')
    g.asks("what_is_named_asks", '{"$ref":"#/$defs/a","$defs":{"a":{"patternProperties":{"a":{}}}}}', '{"a":1,"b":1}', 2)
    return g


def references_in_a_chain(count, last):
    """So many references, each to the place of the next one, and the last of them to `last`."""
    places = {str(n): {"$ref": f"#/$defs/{n + 1}"} for n in range(1, count)}
    return {"$ref": "#/$defs/1", "$defs": {**places, str(count): last}}


def refusals():
    g = Group("Rows_refusals", "Malformed documents.")
    for name, schema in (
        ("each_keyword_builds", '{"prefixItems":[true,{}],"items":{},"contains":false,"minContains":0,"maxContains":3,"$ref":"#/$defs/a","$defs":{"a":{"$ref":"#/$defs/b"},"b":true}}'),
        ("bounds_alone_build", '{"minContains":0,"maxContains":0}'),
        ("what_is_not_read_builds", '{"$defs":{"a":{"$ref":5,"items":5}},"const":"a"}'),
        ("a_member_of_that_name_builds", '{"properties":{"$ref":{"type":"string"}}}'),
        ("as_many_as_may_be_build", references_in_a_chain(REFERENCE_LIMIT, True)),
        ("one_place_twice_builds", '{"prefixItems":[{"$ref":"#/$defs/a"},{"$ref":"#/$defs/a"}],"$defs":{"a":{}}}'),
    ):
        g.builds(name, schema)
    list_wanted = '%s is not of type "array" @ "", %s'
    schema_wanted = '%s is not of types "boolean", "object" @ "", %s'
    lost = '"$ref" is not supported here @ "", %s'
    for name, schema, lines in (
        ("prefix_items_are_a_list", '{"prefixItems":{}}', [list_wanted % ("{}", "/prefixItems")]),
        ("prefix_items_are_schemas", '{"prefixItems":[1,true,2]}', [schema_wanted % ("1", "/prefixItems/0"), schema_wanted % ("2", "/prefixItems/2")]),
        ("items_is_a_schema", '{"items":[true]}', [schema_wanted % ("[true]", "/items")]),
        ("contains_is_a_schema", '{"contains":5}', [schema_wanted % ("5", "/contains")]),
        ("what_stands_inside_is_read", '{"items":{"contains":{"required":5}}}', [list_wanted % ("5", "/items/contains/required")]),
        ("a_least_bound_is_whole", '{"minContains":-1}', ['-1 is not a value for "minContains" @ "", /minContains']),
        ("a_most_bound_is_whole", '{"maxContains":"1"}', ['"1" is not a value for "maxContains" @ "", /maxContains']),
        ("a_reference_is_a_text", '{"$ref":5}', ['5 is not of type "string" @ "", /$ref']),
        ("a_reference_names_a_place", '{"$ref":"#/$defs/a"}', [lost % "/$ref"]),
        ("an_anchor_names_no_place", '{"items":{"$ref":"#a"},"$defs":{"a":{"$anchor":"a"}}}', [lost % "/items/$ref"]),
        ("another_document_is_not_read", '{"$ref":"other.json"}', [lost % "/$ref"]),
        ("a_percent_sign_is_not_read", '{"$ref":"#/a%25b","a%b":true}', [lost % "/$ref"]),
        ("a_tilde_is_followed_by_a_digit", '{"$ref":"#/a~2","a~2":true}', [lost % "/$ref"]),
        ("a_pointer_begins_with_a_slash", '{"$ref":"#$defs","$defs":true}', [lost % "/$ref"]),
        ("a_reference_leads_to_itself", '{"$ref":"#/$defs/a","$defs":{"a":{"$ref":"#/$defs/a"}}}', [lost % "/$defs/a/$ref"]),
        ("one_more_than_may_be", references_in_a_chain(REFERENCE_LIMIT + 1, True), [lost % f"/$defs/{REFERENCE_LIMIT}/$ref"]),
        ("the_root_leads_back_to_itself", '{"properties":{"foo":{"$ref":"#"}},"additionalProperties":false}', [lost % "/properties/foo/$ref"]),
        ("two_lead_to_each_other", '{"$ref":"#/$defs/a","$defs":{"a":{"items":{"$ref":"#/$defs/b"}},"b":{"items":{"$ref":"#/$defs/a"}}}}', [lost % "/$defs/b/items/$ref"]),
        ("what_is_named_is_read", '{"$ref":"#/$defs/a","$defs":{"a":{"required":5}}}', [list_wanted % ("5", "/$defs/a/required")]),
        ("what_is_named_is_a_schema", '{"$ref":"#/$defs","$defs":[1]}', [schema_wanted % ("[1]", "/$defs")]),
    ):
        g.is_refused(name, schema, lines)
    return g


if __name__ == "__main__":
    for group in (arrays(), contains(), bounds(), references(), refusals()):
        group.write()
