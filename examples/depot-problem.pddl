; Two trucks bring four crates from the yard to the harbour, behind the gate.

(define (problem depot-morning)
  (:domain depot)

  (:objects
    yard hall harbour - place
    north south - truck
    lift1 lift2 lift3 - forklift
    glass - fragile
    engine gearbox - heavy
    box - crate)

  (:init
    ; roads, both ways
    (road yard hall)    (= (distance yard hall) 3)
    (road hall yard)    (= (distance hall yard) 3)
    (road hall gate)    (= (distance hall gate) 2)
    (road gate hall)    (= (distance gate hall) 2)
    (road gate harbour) (= (distance gate harbour) 5)
    (road harbour gate) (= (distance harbour gate) 5)
    (locked gate)
    (charger yard) (charger harbour)

    ; vehicles
    (at north yard) (charged north)
    (at south hall)
    (at lift1 yard) (charged lift1)
    (at lift2 harbour)
    (at lift3 hall) (charged lift3)

    ; crates
    (stored glass yard) (stored engine yard) (stored box hall)
    (stored gearbox yard)

    (= (total-cost) 0))

  (:goal (and
    (stored glass harbour) (inspected glass)
    (forall (?c - heavy) (stored ?c harbour))
    (or (stored box harbour) (in box south))
    (not (locked gate))))

  (:metric minimize (total-cost)))
