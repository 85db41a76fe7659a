(set-logic QF_BV)
(define-sort |top_s| () (_ BitVec 17))
(define-fun |top_is| ((state |top_s|)) Bool (= ((_ extract 0 0) state) #b1))
(define-fun |top#0| ((state |top_s|)) (_ BitVec 8) ((_ extract 8 1) state)) ; \a
(define-fun |top_n a| ((state |top_s|)) (_ BitVec 8) (|top#0| state))
(define-fun |top#1| ((state |top_s|)) (_ BitVec 8) ((_ extract 16 9) state)) ; \b
(define-fun |top_n b| ((state |top_s|)) (_ BitVec 8) (|top#1| state))
(define-fun |top#2| ((state |top_s|)) Bool (distinct (|top#1| state) #b00000000)) ; $0$formal$measure/unsat_division.v:4$1_CHECK[0:0]$5
(define-fun |top_u 0| ((state |top_s|)) Bool (or (|top#2| state) (not true))) ; $assume$measure/unsat_division.v:4$11
(define-fun |top#3| ((state |top_s|)) (_ BitVec 9) (bvsub (concat #b00000000 ((_ extract 7 7) (|top#0| state))) (concat #b0 (|top#1| state)))) ; $techmap$mod$measure/unsat_division.v:3$3.division.$sub$division.v:16$31_Y
(define-fun |top#4| ((state |top_s|)) Bool (bvult (concat #b00000000 ((_ extract 7 7) (|top#0| state))) (concat #b0 (|top#1| state)))) ; $mod$measure/unsat_division.v:3$3.division.bit[7].too_small
(define-fun |top#5| ((state |top_s|)) (_ BitVec 9) (ite (|top#4| state) (concat #b00000000 ((_ extract 7 7) (|top#0| state))) (|top#3| state))) ; { $mod$measure/unsat_division.v:3$3.division.bit[7].after [8] $mod$measure/unsat_division.v:3$3.division.bit[6].before [8:1] }
(define-fun |top#6| ((state |top_s|)) (_ BitVec 9) (bvsub (concat ((_ extract 7 0) (|top#5| state)) ((_ extract 6 6) (|top#0| state))) (concat #b0 (|top#1| state)))) ; $techmap$mod$measure/unsat_division.v:3$3.division.$sub$division.v:16$35_Y
(define-fun |top#7| ((state |top_s|)) Bool (bvult (concat ((_ extract 7 0) (|top#5| state)) ((_ extract 6 6) (|top#0| state))) (concat #b0 (|top#1| state)))) ; $mod$measure/unsat_division.v:3$3.division.bit[6].too_small
(define-fun |top#8| ((state |top_s|)) (_ BitVec 9) (ite (|top#7| state) (concat ((_ extract 7 0) (|top#5| state)) ((_ extract 6 6) (|top#0| state))) (|top#6| state))) ; { $mod$measure/unsat_division.v:3$3.division.bit[6].after [8] $mod$measure/unsat_division.v:3$3.division.bit[5].before [8:1] }
(define-fun |top#9| ((state |top_s|)) (_ BitVec 9) (bvsub (concat ((_ extract 7 0) (|top#8| state)) ((_ extract 5 5) (|top#0| state))) (concat #b0 (|top#1| state)))) ; $techmap$mod$measure/unsat_division.v:3$3.division.$sub$division.v:16$39_Y
(define-fun |top#10| ((state |top_s|)) Bool (bvult (concat ((_ extract 7 0) (|top#8| state)) ((_ extract 5 5) (|top#0| state))) (concat #b0 (|top#1| state)))) ; $mod$measure/unsat_division.v:3$3.division.bit[5].too_small
(define-fun |top#11| ((state |top_s|)) (_ BitVec 9) (ite (|top#10| state) (concat ((_ extract 7 0) (|top#8| state)) ((_ extract 5 5) (|top#0| state))) (|top#9| state))) ; { $mod$measure/unsat_division.v:3$3.division.bit[5].after [8] $mod$measure/unsat_division.v:3$3.division.bit[4].before [8:1] }
(define-fun |top#12| ((state |top_s|)) (_ BitVec 9) (bvsub (concat ((_ extract 7 0) (|top#11| state)) ((_ extract 4 4) (|top#0| state))) (concat #b0 (|top#1| state)))) ; $techmap$mod$measure/unsat_division.v:3$3.division.$sub$division.v:16$43_Y
(define-fun |top#13| ((state |top_s|)) Bool (bvult (concat ((_ extract 7 0) (|top#11| state)) ((_ extract 4 4) (|top#0| state))) (concat #b0 (|top#1| state)))) ; $mod$measure/unsat_division.v:3$3.division.bit[4].too_small
(define-fun |top#14| ((state |top_s|)) (_ BitVec 9) (ite (|top#13| state) (concat ((_ extract 7 0) (|top#11| state)) ((_ extract 4 4) (|top#0| state))) (|top#12| state))) ; { $mod$measure/unsat_division.v:3$3.division.bit[4].after [8] $mod$measure/unsat_division.v:3$3.division.bit[3].before [8:1] }
(define-fun |top#15| ((state |top_s|)) (_ BitVec 9) (bvsub (concat ((_ extract 7 0) (|top#14| state)) ((_ extract 3 3) (|top#0| state))) (concat #b0 (|top#1| state)))) ; $techmap$mod$measure/unsat_division.v:3$3.division.$sub$division.v:16$47_Y
(define-fun |top#16| ((state |top_s|)) Bool (bvult (concat ((_ extract 7 0) (|top#14| state)) ((_ extract 3 3) (|top#0| state))) (concat #b0 (|top#1| state)))) ; $mod$measure/unsat_division.v:3$3.division.bit[3].too_small
(define-fun |top#17| ((state |top_s|)) (_ BitVec 9) (ite (|top#16| state) (concat ((_ extract 7 0) (|top#14| state)) ((_ extract 3 3) (|top#0| state))) (|top#15| state))) ; { $mod$measure/unsat_division.v:3$3.division.bit[3].after [8] $mod$measure/unsat_division.v:3$3.division.bit[2].before [8:1] }
(define-fun |top#18| ((state |top_s|)) (_ BitVec 9) (bvsub (concat ((_ extract 7 0) (|top#17| state)) ((_ extract 2 2) (|top#0| state))) (concat #b0 (|top#1| state)))) ; $techmap$mod$measure/unsat_division.v:3$3.division.$sub$division.v:16$51_Y
(define-fun |top#19| ((state |top_s|)) Bool (bvult (concat ((_ extract 7 0) (|top#17| state)) ((_ extract 2 2) (|top#0| state))) (concat #b0 (|top#1| state)))) ; $mod$measure/unsat_division.v:3$3.division.bit[2].too_small
(define-fun |top#20| ((state |top_s|)) (_ BitVec 9) (ite (|top#19| state) (concat ((_ extract 7 0) (|top#17| state)) ((_ extract 2 2) (|top#0| state))) (|top#18| state))) ; { $mod$measure/unsat_division.v:3$3.division.bit[2].after [8] $mod$measure/unsat_division.v:3$3.division.bit[1].before [8:1] }
(define-fun |top#21| ((state |top_s|)) (_ BitVec 9) (bvsub (concat ((_ extract 7 0) (|top#20| state)) ((_ extract 1 1) (|top#0| state))) (concat #b0 (|top#1| state)))) ; $techmap$mod$measure/unsat_division.v:3$3.division.$sub$division.v:16$55_Y
(define-fun |top#22| ((state |top_s|)) Bool (bvult (concat ((_ extract 7 0) (|top#20| state)) ((_ extract 1 1) (|top#0| state))) (concat #b0 (|top#1| state)))) ; $mod$measure/unsat_division.v:3$3.division.bit[1].too_small
(define-fun |top#23| ((state |top_s|)) (_ BitVec 9) (ite (|top#22| state) (concat ((_ extract 7 0) (|top#20| state)) ((_ extract 1 1) (|top#0| state))) (|top#21| state))) ; { $mod$measure/unsat_division.v:3$3.division.bit[1].after [8] $mod$measure/unsat_division.v:3$3.division.bit[0].before [8:1] }
(define-fun |top#24| ((state |top_s|)) (_ BitVec 9) (bvsub (concat ((_ extract 7 0) (|top#23| state)) ((_ extract 0 0) (|top#0| state))) (concat #b0 (|top#1| state)))) ; $techmap$mod$measure/unsat_division.v:3$3.division.$sub$division.v:16$59_Y
(define-fun |top#25| ((state |top_s|)) Bool (bvult (concat ((_ extract 7 0) (|top#23| state)) ((_ extract 0 0) (|top#0| state))) (concat #b0 (|top#1| state)))) ; $mod$measure/unsat_division.v:3$3.division.bit[0].too_small
(define-fun |top#26| ((state |top_s|)) (_ BitVec 9) (ite (|top#25| state) (concat ((_ extract 7 0) (|top#23| state)) ((_ extract 0 0) (|top#0| state))) (|top#24| state))) ; { $mod$measure/unsat_division.v:3$3.division.bit[0].after [8] \left }
(define-fun |top#27| ((state |top_s|)) Bool (bvult ((_ extract 7 0) (|top#26| state)) (|top#1| state))) ; $ge$measure/unsat_division.v:6$10.less
(define-fun |top#28| ((state |top_s|)) (_ BitVec 1) (bvnot (ite (|top#27| state) #b1 #b0))) ; $0$formal$measure/unsat_division.v:5$2_CHECK[0:0]$7
(define-fun |top_u 1| ((state |top_s|)) Bool (or (= ((_ extract 0 0) (|top#28| state)) #b1) (not true))) ; $assume$measure/unsat_division.v:5$12
(define-fun |top_a| ((state |top_s|)) Bool true)
(define-fun |top_u| ((state |top_s|)) Bool (and
  (|top_u 0| state)
  (|top_u 1| state)
))
(define-fun |top_i| ((state |top_s|)) Bool true)
(define-fun |top_h| ((state |top_s|)) Bool true)
(define-fun |top_t| ((state |top_s|) (next_state |top_s|)) Bool true) ; end of module top
(declare-fun s () |top_s|)
(assert (|top_u| s))
(check-sat)
