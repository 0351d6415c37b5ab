#!/usr/bin/env python3
"""Writes domain.pddl, problem.pddl and plan.plan of a case into a folder. The same files come each time, and each plan is valid.

walk       a million plain steps round a ring of a hundred places
together   20,000 steps at one moment, each of a lamp of its own
few        2,000 steps at one moment, where 200,000 atoms hold at first
moments    100,000 moments with ten steps each
adl        200 steps, two at a moment, each of which quantifies over 2,000 objects with a condition for each
variables  one step, whose action quantifies over 400,000 variables of a type with one object
group      one step, and a goal that quantifies over 20,000 variables before an either of 20,000 types, of which one has an object
nothing    one step, whose action has 100,000 quantifiers under one over a type with no object
single     one step, whose action has 20,000 quantifiers over a type with one object, beside 200,000 objects of another type
names      four steps and four facts, each of a name of 100,000 letters with 100,000 objects

Usage: plan_files.py walk|together|few|moments|adl|variables|group|nothing|single|names FOLDER
"""
import os
import sys

WALK = """\
(define (domain walk)
  (:requirements :typing :action-costs)
  (:types place)
  (:predicates (at ?p - place) (road ?from ?to - place))
  (:functions (total-cost))
  (:action m
    :parameters (?from ?to - place)
    :precondition (and (at ?from) (road ?from ?to))
    :effect (and (not (at ?from)) (at ?to) (increase (total-cost) 1))))
"""

LAMPS = """\
(define (domain lamps)
  (:requirements :typing :action-costs)
  (:types lamp)
  (:predicates (on ?l - lamp) (ok ?l - lamp))
  (:functions (total-cost))
  (:action s
    :parameters (?l - lamp)
    :precondition (and (not (on ?l)) (ok ?l))
    :effect (and (on ?l) (increase (total-cost) 1)))
  (:action r
    :parameters (?l - lamp)
    :precondition (on ?l)
    :effect (and (not (on ?l)) (increase (total-cost) 1))))
"""

HALLS = """\
(define (domain halls)
  (:requirements :adl :action-costs)
  (:types hall lamp)
  (:predicates (in ?l - lamp ?h - hall) (on ?l - lamp) (old ?l - lamp))
  (:functions (total-cost))
  (:action s
    :parameters (?h - hall)
    :precondition (exists (?l - lamp) (in ?l ?h))
    :effect (and (increase (total-cost) 1)
      (forall (?l - lamp) (when (and (in ?l ?h) (not (old ?l))) (on ?l)))))
  (:action r
    :parameters (?h - hall)
    :precondition (forall (?l - lamp) (imply (in ?l ?h) (not (old ?l))))
    :effect (and (increase (total-cost) 1)
      (forall (?l - lamp) (when (in ?l ?h) (not (on ?l)))))))
"""

ROOMS = """\
(define (domain rooms)
  (:requirements :adl)
  (:types room hole)
  (:predicates (done))
  (:action s
    :parameters ()
    :effect {effect}))
"""


def problem(domain, objects, init, goal):
    return (f"(define (problem bench)\n  (:domain {domain})\n  (:objects {objects})\n  (:init {init})\n"
            f"  (:goal {goal})\n  (:metric minimize (total-cost)))\n")


def lamps(count):
    names = [f"l{n}" for n in range(count)]
    return " ".join(names) + " - lamp", " ".join(f"(ok {name})" for name in names)


def walk():
    count = 100
    places = " ".join(f"p{n}" for n in range(count)) + " - place"
    roads = " ".join(f"(road p{n} p{(n + 1) % count})" for n in range(count))
    plan = "".join(f"(m p{n % count} p{(n + 1) % count})\n" for n in range(1_000_000))
    return WALK, problem("walk", places, "(at p0) " + roads, "(at p0)"), plan


def together():
    objects, init = lamps(20_000)
    return LAMPS, problem("lamps", objects, init, "(on l0)"), "".join(f"0: (s l{n})\n" for n in range(20_000))


def few():
    objects, init = lamps(200_000)
    return LAMPS, problem("lamps", objects, init, "(on l0)"), "".join(f"0: (s l{n * 100})\n" for n in range(2_000))


def moments():
    objects, init = lamps(10)
    lines = (f"{moment}: ({'sr'[moment % 2]} l{n})\n" for moment in range(100_000) for n in range(10))
    return LAMPS, problem("lamps", objects, init, "(not (on l0))"), "".join(lines)


def adl():
    halls = " ".join(f"h{n}" for n in range(20))
    names = [f"l{n}" for n in range(2_000)]
    init = " ".join(f"(in {name} h{n % 20})" for n, name in enumerate(names))
    lines = (f"{moment}: ({'sr'[moment % 2]} h{moment // 2 % 10 + 10 * n})\n" for moment in range(100) for n in range(2))
    return HALLS, problem("halls", f"{halls} - hall {' '.join(names)} - lamp", init, "(and)"), "".join(lines)


def rooms(effect, goal):
    files = "(define (problem bench) (:domain rooms) (:objects r - room) (:init) (:goal " + goal + "))\n"
    return ROOMS.replace("{effect}", effect), files, "(s)\n"


def variables():
    return rooms("(forall (" + " ".join(f"?v{n}" for n in range(400_000)) + " - room) (done))", "(done)")


def group():
    count = 20_000
    types = " ".join(f"t{n}" for n in range(count))
    domain = ROOMS.replace("room hole", types).replace("{effect}", "(done)")
    variables = " ".join(f"?v{n}" for n in range(count))
    files = f"(define (problem bench) (:domain rooms) (:objects r - t0) (:init) (:goal (forall ({variables} - (either {types})) (done))))\n"
    return domain, files, "(s)\n"


def nothing():
    return rooms("(forall (?h - hole) (and" + " (forall (?r - room) (done))" * 100_000 + "))", "(not (done))")


def single():
    lamps = " ".join(f"l{n}" for n in range(200_000))
    domain, files, plan = rooms("(and" + " (forall (?r - room) (done))" * 20_000 + ")", "(done)")
    return domain, files.replace("r - room", f"r - room {lamps} - hole"), plan


def names():
    name, count = "n" * 100_000, 100_000
    variables = " ".join(f"?v{n}" for n in range(count))
    domain = f"(define (domain long) (:predicates (done) ({name} {variables})) (:action {name} :parameters ({variables}) :effect (done)))\n"
    terms = f"({name}{' r' * count})\n"
    files = f"(define (problem bench) (:domain long) (:objects r) (:init {terms * 4}) (:goal (done)))\n"
    return domain, files, terms * 4


CASES = {"walk": walk, "together": together, "few": few, "moments": moments, "adl": adl, "variables": variables, "group": group,
         "nothing": nothing, "single": single, "names": names}


def main():
    if len(sys.argv) != 3 or sys.argv[1] not in CASES or not os.path.isdir(sys.argv[2]):
        sys.exit(__doc__)
    for name, text in zip(("domain.pddl", "problem.pddl", "plan.plan"), CASES[sys.argv[1]]()):
        with open(os.path.join(sys.argv[2], name), "w", encoding="ascii") as file:
            file.write(text)


main()
