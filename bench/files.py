#!/usr/bin/env python3
"""Makes a file of a kind, of about so many MiB and no more, on standard output. The same file comes each time.

A plan has steps with three objects each: plain, timed, or with a comment before each step. A domain has many
actions; a problem has many objects and a long `:init`.

Usage: files.py plain|timed|comments|domain|problem MIB
       files.py KIND N

The second form makes a domain, or a problem or a plan of it, with so many of something:

    actions           a domain of so many actions
    items             a problem of it with so many items in `:init`, and two objects for each five of them
    parameters        a domain with an action of so many parameters, each spoken of once
    variables         a problem of it whose goal quantifies over so many variables of a type with one object, each spoken of once, beside twice as many other objects
    hidden            a problem of it whose goal has 118 quantifiers, one in the other, all but the first of which bind one name: the innermost is spoken of so many times
    outermost         the same, where the outermost is spoken of
    eithers           so many types with a slot and a parameter of an `either` of them all
    facts             a problem of it with an object of each type and three facts for each
    spoken            a problem of it whose goal speaks thirty times as often of a variable of that `either`
    seen              a valid plan of it with a step for each type
    crossed           so many types, and as many predicates of a slot of an `either` of them all
    crossed-goal      a problem of it whose goal has each of these of each of as many variables of such an `either`
    subsets           so many types, and a fourth as many predicates, whose slots are of an `either` of each second type and of one more
    subsets-goal      a problem of it whose goal has each of these of each of a sixth as many variables, of an `either` of a half of the second types
    apart             so many types with 129 others before each, and two fifths as many predicates, whose slots are of an `either` of all of the former and of one of the others
    apart-goal        a problem of it whose goal has each of these of each of as many variables, of an `either` of three tenths of the former
    above             so many types below a chain of as many others, each of which is the type of a predicate's slot
    above-goal        a problem of it whose goal has each predicate of one variable of an `either` of half of the types below
    chain             so many types, one below the other, and a predicate of the first
    chain-facts       a problem of it with ten objects of the last for each type, and a fact of each
    slot              so many types, and a predicate of an `either` of them all
    slot-facts        a problem of it with an object of the last type, and four facts of it for each type
    retold            a fourth as many types, and so many constants of an `either` of them all
    retold-objects    a problem of it that lists the constants again
    costs             a domain with a function
    costs-values      a problem of it with so many objects, and a value of the function for each
    late              a domain with a predicate
    late-facts        a problem of it with so many objects whose names differ behind a hundred letters, and a fact of each
    repeated          a problem of it with one object that is listed so many times, and one fact as often
    ring              so many types in a chain, the last two of which are above themselves
    rings             so many types in pairs, each the parent of the other
    below             so many types below one whose name has five letters for each of them
    slots             so many types with a predicate of as many slots, and a quantifier of as many variables, each list before one `either` of them all
    named             an action that speaks so many times of a parameter whose type has a name of as many letters
    named-facts       a problem of it with so many facts of an object of that type
    named-constants   a domain with so many constants of such a type
    named-objects     a problem of it that lists these again
    short, long       a plan of so many steps, each with two objects of few letters, or with eight of many

All link but `ring` and `rings`, the constants of `retold`, and goals of `hidden` and `outermost` that are larger than may be.
"""
import itertools
import random
import sys

NUMBERS = random.Random(7)


def step():
    truck, start, goal = NUMBERS.randrange(100), NUMBERS.randrange(1000), NUMBERS.randrange(1000)
    return f"(drive truck{truck} depot{start} depot{goal})\n"


def timed(number):
    return f"{number // 10}.{number % 1000:03d}: {step()}"


def commented(_number):
    return "; this step moves one truck, as the planner that found it says at length\n" + step()


DOMAIN_HEAD = """\
; A depot whose every road is an action of its own.
(define (domain depot)
  (:requirements :adl :action-costs)
  (:types place vehicle crate - object truck lift - vehicle)
  (:constants yard gate - place)
  (:predicates (at ?v - vehicle ?p - place) (in ?c - crate ?t - truck) (locked ?p - place) (seen ?c - crate))
  (:functions (total-cost) - number (length ?p - place) - number)
"""


def action(number):
    return f"""\
  (:action Drive-{number}
    :parameters (?t - truck ?from ?to - place)
    :precondition (and (at ?t ?from) (not (locked ?to))
      (forall (?c - crate) (imply (in ?c ?t) (seen ?c))))
    :effect (and (not (at ?t ?from)) (at ?t ?to) ; road {number}
      (forall (?c - crate) (when (in ?c ?t) (not (seen ?c))))
      (increase (total-cost) {NUMBERS.randrange(100)}.{NUMBERS.randrange(10)}0)))
"""


# so many places, trucks and crates for each MiB: about a tenth of the bytes
OBJECTS = 4000


def problem_head(mib):
    count = OBJECTS * mib
    names = [f"depot{n}" for n in range(count)] + ["- place\n   "]
    names += [f"Truck{n}" for n in range(count)] + ["- truck\n   "]
    names += [f"crate{n}" for n in range(count)] + ["- crate"]
    return ("; A depot on a busy day.\n(define (problem day)\n  (:domain depot)\n  (:objects\n    " + " ".join(names)
            + ")\n  (:init\n    (= total-cost 0)\n")


def fact(mib):
    count = OBJECTS * mib
    first, second = NUMBERS.randrange(count), NUMBERS.randrange(count)
    return NUMBERS.choice((
        f"    (At Truck{first} depot{second})\n",
        f"    (in crate{first} truck{second}) ; loaded\n",
        f"    (= (length depot{first}) {second}.50)\n",
    ))


PROBLEM_TAIL = """\
  )
  (:goal (and (at truck0 depot1) (forall (?c - crate) (exists (?t - truck) (in ?c ?t)))))
  (:metric minimize total-cost))
"""


def linked_action(number):
    return f"""\
  (:action drive-{number}
    :parameters (?t - truck ?from ?to - place)
    :precondition (and (at ?t ?from) (not (locked ?to)) (forall (?c - crate) (imply (in ?c ?t) (seen ?c))))
    :effect (and (not (at ?t ?from)) (at ?t ?to) (forall (?c - crate) (when (in ?c ?t) (not (seen ?c))))
      (increase (total-cost) (length ?to))))
"""


def linked_domain(actions):
    return DOMAIN_HEAD + "".join(linked_action(number) for number in range(actions)) + ")\n"


def linked_problem(items):
    count = max(items // 10, 1)
    kinds = (("depot", "place"), ("truck", "truck"), ("crate", "crate"), ("lift", "lift"))
    objects = "".join(f"    {' '.join(f'{name}{n}' for n in range(count))} - {kind}\n" for name, kind in kinds)
    facts = (
        lambda n: f"(at truck{n % count} depot{n * 7 % count})\n",
        lambda n: f"(in crate{n % count} truck{n * 5 % count})\n",
        lambda n: f"(= (length depot{n % count}) {n % count})\n",
    )
    init = "".join(facts[n % 3](n) for n in range(items))
    return f"(define (problem day)\n  (:domain depot)\n  (:objects\n{objects})\n  (:init\n{init})\n  (:goal (and (at truck0 depot0) (in crate0 truck0)))\n  (:metric minimize (total-cost)))\n"


def numbered(text, count):
    return " ".join(text.replace("#", str(number)) for number in range(count))


def many_parameters(count):
    return (f"(define (domain many)\n  (:types lone other)\n  (:predicates (seen ?x - lone))\n  (:action see\n    :parameters ({numbered('?v#', count)} - lone)\n"
            f"    :precondition (and {numbered('(seen ?v#)', count)})\n    :effect (not (seen ?v0))))\n")


def many_variables(count):
    return (f"(define (problem many-1)\n  (:domain many)\n  (:objects one - lone {numbered('o#', 2 * count)} - other)\n  (:init (seen one))\n"
            f"  (:goal (forall ({numbered('?v#', count)} - lone) (and {numbered('(seen ?v#)', count)}))))\n")


def deep_goal(variable):
    def made(count):
        inner = "(exists (?v - lone) " * 117
        return (f"(define (problem many-2)\n  (:domain many)\n  (:objects one - lone)\n  (:init (seen one))\n"
                f"  (:goal (exists (?w - lone) {inner}\n    (and {f'(seen ?{variable}) ' * count}){')' * 118}))\n")
    return made


def many_types(count):
    either = f"(either {numbered('t#', count)})"
    return (f"(define (domain eithers)\n  (:types {numbered('t#', count)})\n  (:predicates (open ?x - {either}) (near ?x ?y - {either}))\n  (:action see\n    :parameters (?x - {either})\n"
            "    :precondition (open ?x)\n    :effect (not (open ?x))))\n")


def many_facts(count):
    objects = "\n".join(f"    o{number} - t{number}" for number in range(count))
    facts = "".join(f"    (open o{number}) (near o{number} o0) (near o{number} o{number * 7 % count})\n" for number in range(count))
    return f"(define (problem eithers-1)\n  (:domain eithers)\n  (:objects\n{objects})\n  (:init\n{facts})\n  (:goal (near o0 o0)))\n"


def much_spoken(count):
    return (f"(define (problem eithers-2)\n  (:domain eithers)\n  (:init)\n  (:goal (forall (?v - (either {numbered('t#', count)}))\n"
            f"    (and {'(open ?v) (near ?v ?v) ' * (10 * count)}))))\n")


def crossed_slots(count):
    either = f"(either {numbered('t#', count)})"
    predicates = " ".join(f"(p{number} ?x - {either})" for number in range(count))
    return f"(define (domain crossed)\n  (:types {numbered('t#', count)})\n  (:predicates {predicates}))\n"


def crossed_variables(count):
    variables = " ".join(f"?v{number} - (either {numbered('t#', count)})" for number in range(count))
    atoms = " ".join(f"(p{slot} ?v{variable})" for slot in range(count) for variable in range(count))
    return f"(define (problem crossed-1)\n  (:domain crossed)\n  (:init)\n  (:goal (forall ({variables})\n    (and {atoms}))))\n"


def crossed_subsets(count):
    even = " ".join(f"t{number}" for number in range(0, count, 2))
    predicates = "\n".join(f"    (p{slot} ?x - (either {even} t{2 * slot + 1}))" for slot in range(count // 4))
    return f"(define (domain subsets)\n  (:types {numbered('t#', count)})\n  (:predicates\n{predicates}))\n"


def subset_variables(count):
    numbers = random.Random(11)
    eithers = (" ".join(f"t{number}" for number in range(0, count, 2) if numbers.random() < 0.5) for _variable in range(count // 6))
    variables = "\n".join(f"    ?v{variable} - (either {either})" for variable, either in enumerate(eithers))
    atoms = "\n".join(" ".join(f"(p{slot} ?v{variable})" for slot in range(count // 4)) for variable in range(count // 6))
    return f"(define (problem subsets-1)\n  (:domain subsets)\n  (:init)\n  (:goal (forall (\n{variables})\n    (and {atoms}))))\n"


def slots_apart(count):
    types = " ".join(" ".join(f"u{number}x{other}" for other in range(129)) + f" t{number}" for number in range(count))
    predicates = "\n".join(f"    (p{slot} ?x - (either {numbered('t#', count)} u{slot}x0))" for slot in range(2 * count // 5))
    return f"(define (domain apart)\n  (:types {types})\n  (:predicates\n{predicates}))\n"


def variables_apart(count):
    numbers = random.Random(13)
    many = 2 * count // 5
    eithers = (" ".join(f"t{number}" for number in range(count) if numbers.random() < 0.3) or "t0" for _variable in range(many))
    variables = "\n".join(f"    ?v{variable} - (either {either})" for variable, either in enumerate(eithers))
    atoms = "\n".join(" ".join(f"(p{slot} ?v{variable})" for slot in range(many)) for variable in range(many))
    return f"(define (problem apart-1)\n  (:domain apart)\n  (:init)\n  (:goal (forall (\n{variables})\n    (and {atoms}))))\n"


def chain_above(count):
    chain = "".join(f"c{number + 1} - c{number}\n    " for number in range(count - 1))
    predicates = " ".join(f"(p{number} ?x - c{number})" for number in range(count))
    return f"(define (domain above)\n  (:types {chain}{numbered('t#', count)} - c{count - 1})\n  (:predicates {predicates}))\n"


def below_chain(count):
    either = " ".join(f"t{number}" for number in range(0, count, 2))
    atoms = " ".join(f"(p{number} ?v)" for number in range(count))
    return f"(define (problem above-1)\n  (:domain above)\n  (:init)\n  (:goal (exists (?v - (either {either}))\n    (and {atoms}))))\n"


def chain_of_types(count):
    chain = "".join(f"    t{number + 1} - t{number}\n" for number in range(count - 1))
    return f"(define (domain chain)\n  (:types\n    t0 - object\n{chain}  )\n  (:predicates (seen ?x - t0)))\n"


def chain_facts(count):
    return (f"(define (problem chain-1)\n  (:domain chain)\n  (:objects {numbered('o#', 10 * count)} - t{count - 1})\n"
            f"  (:init {numbered('(seen o#)', 10 * count)})\n  (:goal (seen o0)))\n")


def one_slot(count):
    return f"(define (domain slot)\n  (:types {numbered('t#', count)})\n  (:predicates (seen ?x - (either {numbered('t#', count)}))))\n"


def one_slot_facts(count):
    return f"(define (problem slot-1)\n  (:domain slot)\n  (:objects o - t{count - 1})\n  (:init {'(seen o) ' * (4 * count)})\n  (:goal (seen o)))\n"


def either_constants(count):
    types = numbered("t#", count // 4)
    return f"(define (domain retold)\n  (:types {types})\n  (:constants {numbered('o#', count)} - (either {types})))\n"


def either_objects(count):
    return f"(define (problem retold-1)\n  (:domain retold)\n  (:objects {numbered('o#', count)} - (either {numbered('t#', count // 4)}))\n  (:init)\n  (:goal (and)))\n"


def one_function(_count):
    return "(define (domain costs)\n  (:functions (price ?x) - number))\n"


def many_values(count):
    return f"(define (problem costs-1)\n  (:domain costs)\n  (:objects {numbered('o#', count)})\n  (:init {numbered('(= (price o#) #)', count)})\n  (:goal (and)))\n"


def one_predicate(_count):
    return "(define (domain late)\n  (:predicates (seen ?x)))\n"


def late_facts(count):
    return (f"(define (problem late-1)\n  (:domain late)\n  (:objects {numbered('o' * 100 + '#', count)})\n"
            f"  (:init {numbered('(seen ' + 'o' * 100 + '#)', count)})\n  (:goal (and)))\n")


def repeated_items(count):
    return f"(define (problem late-2)\n  (:domain late)\n  (:objects {'o ' * count})\n  (:init {'(seen o) ' * count})\n  (:goal (seen o)))\n"


def many_seen(count):
    return "".join(f"(see o{number})\n" for number in range(count))


def ring_of_types(count):
    chain = "".join(f"    t{number} - t{number + 1}\n" for number in range(count))
    return f"(define (domain ring)\n  (:types\n{chain}    t{count} - t{count - 1}))\n"


def rings_of_types(count):
    pairs = "".join(f"    t{number} - t{number ^ 1}\n" for number in range(count // 2 * 2))
    return f"(define (domain rings)\n  (:types\n{pairs}  ))\n"


def types_below(count):
    return f"(define (domain below)\n  (:types {numbered('t#', count)} - {'p' * (5 * count)}))\n"


def slots_of_types(count):
    either = f"(either {numbered('t#', count)})"
    return (f"(define (domain slots)\n  (:types {numbered('t#', count)})\n  (:predicates (all {numbered('?x#', count)} - {either}))\n  (:action see\n    :parameters ()\n"
            f"    :precondition (exists ({numbered('?v#', count)} - {either}) (= ?v0 ?v1))\n    :effect (and)))\n")


def long_type(count):
    return (f"(define (domain named)\n  (:types {'t' * count})\n  (:predicates (open ?x - {'t' * count}))\n  (:action see\n    :parameters (?x - {'t' * count})\n"
            f"    :precondition (and {'(open ?x) ' * count})\n    :effect (not (open ?x))))\n")


def long_type_facts(count):
    return f"(define (problem named-1)\n  (:domain named)\n  (:objects o - {'t' * count})\n  (:init {'(open o) ' * count})\n  (:goal (open o)))\n"


def long_type_constants(count):
    return f"(define (domain named)\n  (:types {'t' * count})\n  (:constants {numbered('o#', count)} - {'t' * count}))\n"


def long_type_objects(count):
    return f"(define (problem named-2)\n  (:domain named)\n  (:objects {numbered('o#', count)} - {'t' * count})\n  (:init)\n  (:goal (and)))\n"


def short_plan(steps):
    return "".join(f"(go a{number % 97} b{number % 89})\n" for number in range(steps))


def long_plan(steps):
    names = [f"crate-in-yard-{number}" for number in range(100)]
    return "".join(f"(load-them-all {' '.join(names[(number * 7 + k) % 100] for k in range(8))})\n" for number in range(steps))


COUNTED = {
    "actions": linked_domain,
    "items": linked_problem,
    "parameters": many_parameters,
    "variables": many_variables,
    "hidden": deep_goal("v"),
    "outermost": deep_goal("w"),
    "eithers": many_types,
    "facts": many_facts,
    "spoken": much_spoken,
    "crossed": crossed_slots,
    "crossed-goal": crossed_variables,
    "subsets": crossed_subsets,
    "subsets-goal": subset_variables,
    "apart": slots_apart,
    "apart-goal": variables_apart,
    "above": chain_above,
    "above-goal": below_chain,
    "chain": chain_of_types,
    "chain-facts": chain_facts,
    "slot": one_slot,
    "slot-facts": one_slot_facts,
    "retold": either_constants,
    "retold-objects": either_objects,
    "costs": one_function,
    "costs-values": many_values,
    "late": one_predicate,
    "late-facts": late_facts,
    "repeated": repeated_items,
    "seen": many_seen,
    "ring": ring_of_types,
    "rings": rings_of_types,
    "below": types_below,
    "slots": slots_of_types,
    "named": long_type,
    "named-facts": long_type_facts,
    "named-constants": long_type_constants,
    "named-objects": long_type_objects,
    "short": short_plan,
    "long": long_plan,
}


def parts(kind, mib):
    """The head of a file of the kind, its lines or actions by their numbers, and its tail."""
    if kind == "domain":
        return DOMAIN_HEAD, action, ")\n"
    if kind == "problem":
        return problem_head(mib), lambda number: fact(mib), PROBLEM_TAIL
    lines = {"plain": lambda number: step(), "timed": timed, "comments": commented}
    return "", lines[kind], ""


def main():
    if len(sys.argv) == 3 and sys.argv[1] in COUNTED and sys.argv[2].isdigit():
        sys.stdout.write(COUNTED[sys.argv[1]](int(sys.argv[2])))
        return
    if len(sys.argv) != 3 or sys.argv[1] not in ("plain", "timed", "comments", "domain", "problem") or not sys.argv[2].isdigit():
        sys.exit(__doc__)
    mib = int(sys.argv[2])
    head, part, tail = parts(sys.argv[1], mib)
    room = mib * 1024 * 1024 - len(head) - len(tail)
    sys.stdout.write(head)
    for number in itertools.count():
        line = part(number)
        room -= len(line)
        if room < 0:
            break
        sys.stdout.write(line)
    sys.stdout.write(tail)


main()
