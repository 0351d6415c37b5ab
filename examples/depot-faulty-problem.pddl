; A depot's problem with a misspelled name: linking it with depot-domain.pddl says so.

(define (problem depot-evening)
  (:domain depot)
  (:objects
    yard harbour - place
    north - truck
    box - crate)
  (:init
    (road yard gate) (road gate harbour)
    (= (distance yard gate) 5) (= (distance gate harbour) 5)
    (at north yard) (charged north)
    (in box north))
  (:goal (at north harbor))
  (:metric minimize (total-cost)))
