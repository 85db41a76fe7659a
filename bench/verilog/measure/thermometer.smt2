(set-logic QF_BV)
(define-sort |top_s| () (_ BitVec 30))
(define-fun |top_is| ((state |top_s|)) Bool (= ((_ extract 0 0) state) #b1))
(define-fun |top#0| ((state |top_s|)) (_ BitVec 5) ((_ extract 5 1) state)) ; \coarse
(define-fun |top_n coarse| ((state |top_s|)) (_ BitVec 5) (|top#0| state))
(define-fun |top#1| ((state |top_s|)) (_ BitVec 24) ((_ extract 29 6) state)) ; \steps
(define-fun |top_n steps| ((state |top_s|)) (_ BitVec 24) (|top#1| state))
(define-fun |top#2| ((state |top_s|)) (_ BitVec 23) (bvand ((_ extract 22 0) (|top#1| state)) ((_ extract 23 1) (|top#1| state)))) ; { \clean [23] $and$measure/thermometer.v:3$7_Y [21:1] \clean [0] }
(define-fun |top#3| ((state |top_s|)) (_ BitVec 22) (bvor ((_ extract 22 1) (|top#2| state)) ((_ extract 21 0) (|top#2| state)))) ; $auto$opt_expr.cc:205:group_cell_inputs$78
(define-fun |top#4| ((state |top_s|)) (_ BitVec 22) (bvand ((_ extract 23 2) (|top#1| state)) ((_ extract 21 0) (|top#1| state)))) ; $and$measure/thermometer.v:3$13_Y [22:1]
(define-fun |top#5| ((state |top_s|)) (_ BitVec 22) (bvor (|top#3| state) (|top#4| state))) ; \clean [22:1]
(define-fun |top#6| ((state |top_s|)) (_ BitVec 5) (bvadd (concat #b0000 ((_ extract 0 0) (|top#2| state))) (concat #b0000 ((_ extract 0 0) (|top#5| state))))) ; $add$measure/thermometer.v:8$25_Y
(define-fun |top#7| ((state |top_s|)) (_ BitVec 5) (bvadd (|top#6| state) (concat #b0000 ((_ extract 1 1) (|top#5| state))))) ; $add$measure/thermometer.v:8$26_Y
(define-fun |top#8| ((state |top_s|)) (_ BitVec 5) (bvadd (|top#7| state) (concat #b0000 ((_ extract 2 2) (|top#5| state))))) ; $add$measure/thermometer.v:8$27_Y
(define-fun |top#9| ((state |top_s|)) (_ BitVec 5) (bvadd (|top#8| state) (concat #b0000 ((_ extract 3 3) (|top#5| state))))) ; $add$measure/thermometer.v:8$28_Y
(define-fun |top#10| ((state |top_s|)) (_ BitVec 5) (bvadd (|top#9| state) (concat #b0000 ((_ extract 4 4) (|top#5| state))))) ; $add$measure/thermometer.v:8$29_Y
(define-fun |top#11| ((state |top_s|)) (_ BitVec 5) (bvadd (|top#10| state) (concat #b0000 ((_ extract 5 5) (|top#5| state))))) ; $add$measure/thermometer.v:8$30_Y
(define-fun |top#12| ((state |top_s|)) (_ BitVec 5) (bvadd (|top#11| state) (concat #b0000 ((_ extract 6 6) (|top#5| state))))) ; $add$measure/thermometer.v:8$31_Y
(define-fun |top#13| ((state |top_s|)) (_ BitVec 5) (bvadd (|top#12| state) (concat #b0000 ((_ extract 7 7) (|top#5| state))))) ; $add$measure/thermometer.v:8$32_Y
(define-fun |top#14| ((state |top_s|)) (_ BitVec 5) (bvadd (|top#13| state) (concat #b0000 ((_ extract 8 8) (|top#5| state))))) ; $add$measure/thermometer.v:8$33_Y
(define-fun |top#15| ((state |top_s|)) (_ BitVec 5) (bvadd (|top#14| state) (concat #b0000 ((_ extract 9 9) (|top#5| state))))) ; $add$measure/thermometer.v:8$34_Y
(define-fun |top#16| ((state |top_s|)) (_ BitVec 5) (bvadd (|top#15| state) (concat #b0000 ((_ extract 10 10) (|top#5| state))))) ; $add$measure/thermometer.v:8$35_Y
(define-fun |top#17| ((state |top_s|)) (_ BitVec 5) (bvadd (|top#16| state) (concat #b0000 ((_ extract 11 11) (|top#5| state))))) ; $add$measure/thermometer.v:8$36_Y
(define-fun |top#18| ((state |top_s|)) (_ BitVec 5) (bvadd (|top#17| state) (concat #b0000 ((_ extract 12 12) (|top#5| state))))) ; $add$measure/thermometer.v:8$37_Y
(define-fun |top#19| ((state |top_s|)) (_ BitVec 5) (bvadd (|top#18| state) (concat #b0000 ((_ extract 13 13) (|top#5| state))))) ; $add$measure/thermometer.v:8$38_Y
(define-fun |top#20| ((state |top_s|)) (_ BitVec 5) (bvadd (|top#19| state) (concat #b0000 ((_ extract 14 14) (|top#5| state))))) ; $add$measure/thermometer.v:8$39_Y
(define-fun |top#21| ((state |top_s|)) (_ BitVec 5) (bvadd (|top#20| state) (concat #b0000 ((_ extract 15 15) (|top#5| state))))) ; $add$measure/thermometer.v:8$40_Y
(define-fun |top#22| ((state |top_s|)) (_ BitVec 5) (bvadd (|top#21| state) (concat #b0000 ((_ extract 16 16) (|top#5| state))))) ; $add$measure/thermometer.v:8$41_Y
(define-fun |top#23| ((state |top_s|)) (_ BitVec 5) (bvadd (|top#22| state) (concat #b0000 ((_ extract 17 17) (|top#5| state))))) ; $add$measure/thermometer.v:8$42_Y
(define-fun |top#24| ((state |top_s|)) (_ BitVec 5) (bvadd (|top#23| state) (concat #b0000 ((_ extract 18 18) (|top#5| state))))) ; $add$measure/thermometer.v:8$43_Y
(define-fun |top#25| ((state |top_s|)) (_ BitVec 5) (bvadd (|top#24| state) (concat #b0000 ((_ extract 19 19) (|top#5| state))))) ; $add$measure/thermometer.v:8$44_Y
(define-fun |top#26| ((state |top_s|)) (_ BitVec 5) (bvadd (|top#25| state) (concat #b0000 ((_ extract 20 20) (|top#5| state))))) ; $add$measure/thermometer.v:8$45_Y
(define-fun |top#27| ((state |top_s|)) (_ BitVec 5) (bvadd (|top#26| state) (concat #b0000 ((_ extract 21 21) (|top#5| state))))) ; $add$measure/thermometer.v:8$46_Y
(define-fun |top#28| ((state |top_s|)) (_ BitVec 5) (bvadd (|top#27| state) (concat #b0000 ((_ extract 22 22) (|top#2| state))))) ; \count
(define-fun |top#29| ((state |top_s|)) (_ BitVec 4) (bvxor ((_ extract 3 0) (|top#28| state)) ((_ extract 4 1) (|top#28| state)))) ; $auto$opt_expr.cc:205:group_cell_inputs$75
(define-fun |top#30| ((state |top_s|)) Bool (= (concat ((_ extract 4 4) (|top#28| state)) (|top#29| state)) #b11001)) ; $0$formal$measure/thermometer.v:10$4_CHECK[0:0]$20
(define-fun |top_u 0| ((state |top_s|)) Bool (or (|top#30| state) (not true))) ; $assume$measure/thermometer.v:10$61
(define-fun |top#31| ((state |top_s|)) (_ BitVec 4) (bvsub ((_ extract 4 1) (|top#28| state)) #b0001)) ; $sub$measure/thermometer.v:12$55_Y [4:1]
(define-fun |top#32| ((state |top_s|)) Bool (bvult (concat (|top#31| state) ((_ extract 0 0) (|top#28| state))) (|top#0| state))) ; $gt$measure/thermometer.v:12$56_Y
(define-fun |top#33| ((state |top_s|)) Bool (bvult (|top#0| state) (|top#28| state))) ; $logic_and$measure/thermometer.v:12$58.b
(define-fun |top#34| ((state |top_s|)) (_ BitVec 1) (bvand (ite (|top#32| state) #b1 #b0) (ite (|top#33| state) #b1 #b0))) ; $0$formal$measure/thermometer.v:11$5_CHECK[0:0]$22
(define-fun |top_u 1| ((state |top_s|)) Bool (or (= ((_ extract 0 0) (|top#34| state)) #b1) (not true))) ; $assume$measure/thermometer.v:11$62
(define-fun |top#35| ((state |top_s|)) (_ BitVec 24) (bvadd (concat ((_ extract 22 22) (|top#2| state)) (concat (|top#5| state) ((_ extract 0 0) (|top#2| state)))) #b000000000000000000000001)) ; $add$measure/thermometer.v:9$48_Y
(define-fun |top#36| ((state |top_s|)) (_ BitVec 24) (bvand (concat ((_ extract 22 22) (|top#2| state)) (concat (|top#5| state) ((_ extract 0 0) (|top#2| state)))) (|top#35| state))) ; $and$measure/thermometer.v:9$49_Y
(define-fun |top#37| ((state |top_s|)) Bool (= (|top#36| state) #b000000000000000000000000)) ; $0$formal$measure/thermometer.v:8$2_CHECK[0:0]$16
(define-fun |top_u 2| ((state |top_s|)) Bool (or (|top#37| state) (not true))) ; $assume$measure/thermometer.v:8$59
(define-fun |top#38| ((state |top_s|)) Bool (distinct (|top#1| state) (concat ((_ extract 22 22) (|top#2| state)) (concat (|top#5| state) ((_ extract 0 0) (|top#2| state)))))) ; $0$formal$measure/thermometer.v:9$3_CHECK[0:0]$18
(define-fun |top_u 3| ((state |top_s|)) Bool (or (|top#38| state) (not true))) ; $assume$measure/thermometer.v:9$60
(define-fun |top_a| ((state |top_s|)) Bool true)
(define-fun |top_u| ((state |top_s|)) Bool (and
  (|top_u 0| state)
  (|top_u 1| state)
  (|top_u 2| state)
  (|top_u 3| state)
))
(define-fun |top_i| ((state |top_s|)) Bool true)
(define-fun |top_h| ((state |top_s|)) Bool true)
(define-fun |top_t| ((state |top_s|) (next_state |top_s|)) Bool true) ; end of module top
(declare-fun s () |top_s|)
(assert (|top_u| s))
(check-sat)
