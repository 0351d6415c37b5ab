; A depot whose trucks take time for a drive: actions with durations are left out of the language.

(define (domain depot)
  (:requirements :typing :durative-actions)
  (:types place truck - object)
  (:predicates (at ?t - truck ?p - place) (road ?from ?to - place))
  (:durative-action drive
    :parameters (?t - truck ?from ?to - place)
    :duration (= ?duration 5)
    :condition (and (at start (at ?t ?from)) (over all (road ?from ?to)))
    :effect (and (at start (not (at ?t ?from))) (at end (at ?t ?to)))))
