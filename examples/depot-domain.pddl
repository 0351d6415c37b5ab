; A depot: trucks drive between places, forklifts load and unload crates, and batteries are charged
; where there is a charger. What a plan costs is the length of its drives, and one for each other action
; but the opening of the gate.

(define (domain depot)
  (:requirements :typing :negative-preconditions :disjunctive-preconditions :equality
                 :quantified-preconditions :conditional-effects :action-costs)

  (:types
    place crate vehicle - object
    truck forklift - vehicle
    fragile heavy - crate)

  (:constants
    gate - place)

  (:predicates
    (at ?v - vehicle ?p - place)
    (stored ?c - crate ?p - place)
    (in ?c - crate ?t - truck)
    (road ?from ?to - place)
    (charger ?p - place)
    (charged ?v - vehicle)
    (locked ?p - place)
    (inspected ?x - (either truck crate)))

  (:functions
    (total-cost) - number
    (distance ?from ?to - place) - number)

  (:action drive
    :parameters (?t - truck ?from ?to - place)
    :precondition (and (at ?t ?from) (road ?from ?to) (charged ?t)
                       (not (= ?from ?to)) (not (locked ?to)))
    :effect (and
      (not (at ?t ?from)) (at ?t ?to)
      (forall (?c - crate) (when (in ?c ?t) (not (inspected ?c))))   ; a drive shakes what is loaded
      (increase (total-cost) (distance ?from ?to))))

  (:action load
    :parameters (?f - forklift ?c - crate ?t - truck ?p - place)
    :precondition (and (at ?f ?p) (at ?t ?p) (stored ?c ?p) (charged ?f))
    :effect (and (not (stored ?c ?p)) (in ?c ?t)
                 (increase (total-cost) 1)))

  (:action unload
    :parameters (?f - forklift ?c - crate ?t - truck ?p - place)
    :precondition (and (at ?f ?p) (at ?t ?p) (in ?c ?t) (charged ?f))
    :effect (and (not (in ?c ?t)) (stored ?c ?p)
                 (increase (total-cost) 1)))

  (:action charge
    :parameters (?v - vehicle ?p - place)
    :precondition (and (at ?v ?p) (charger ?p))
    :effect (and (charged ?v) (increase (total-cost) 1)))

  ; The gate opens when no truck stands there with a fragile crate that was not inspected.
  (:action open-gate
    :parameters ()
    :precondition (and (locked gate)
      (forall (?t - truck ?c - fragile)
        (imply (and (at ?t gate) (in ?c ?t)) (inspected ?c))))
    :effect (not (locked gate)))

  (:action inspect
    :parameters (?t - truck ?p - place)
    :precondition (and (at ?t ?p) (or (= ?p gate) (exists (?f - forklift) (at ?f ?p))))
    :effect (and (inspected ?t)
                 (forall (?c - crate) (when (in ?c ?t) (inspected ?c)))
                 (increase (total-cost) 1)))
)
