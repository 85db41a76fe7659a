(set-logic QF_BV)
(define-sort |top_s| () (_ BitVec 129))
(define-fun |top_is| ((state |top_s|)) Bool (= ((_ extract 0 0) state) #b1))
(define-fun |top#0| ((state |top_s|)) (_ BitVec 16) ((_ extract 16 1) state)) ; \t0
(define-fun |top_n t0| ((state |top_s|)) (_ BitVec 16) (|top#0| state))
(define-fun |top#1| ((state |top_s|)) (_ BitVec 16) ((_ extract 32 17) state)) ; \t1
(define-fun |top_n t1| ((state |top_s|)) (_ BitVec 16) (|top#1| state))
(define-fun |top#2| ((state |top_s|)) (_ BitVec 16) ((_ extract 48 33) state)) ; \t2
(define-fun |top_n t2| ((state |top_s|)) (_ BitVec 16) (|top#2| state))
(define-fun |top#3| ((state |top_s|)) (_ BitVec 16) ((_ extract 64 49) state)) ; \t3
(define-fun |top_n t3| ((state |top_s|)) (_ BitVec 16) (|top#3| state))
(define-fun |top#4| ((state |top_s|)) (_ BitVec 16) ((_ extract 80 65) state)) ; \t4
(define-fun |top_n t4| ((state |top_s|)) (_ BitVec 16) (|top#4| state))
(define-fun |top#5| ((state |top_s|)) (_ BitVec 16) ((_ extract 96 81) state)) ; \t5
(define-fun |top_n t5| ((state |top_s|)) (_ BitVec 16) (|top#5| state))
(define-fun |top#6| ((state |top_s|)) (_ BitVec 16) ((_ extract 112 97) state)) ; \t6
(define-fun |top_n t6| ((state |top_s|)) (_ BitVec 16) (|top#6| state))
(define-fun |top#7| ((state |top_s|)) (_ BitVec 16) ((_ extract 128 113) state)) ; \t7
(define-fun |top_n t7| ((state |top_s|)) (_ BitVec 16) (|top#7| state))
(define-fun |top#8| ((state |top_s|)) Bool (= ((_ extract 5 0) (|top#5| state)) #b000000)) ; $0$formal$choose/time_stamps.v:10$7_CHECK[0:0]$29
(define-fun |top_u 0| ((state |top_s|)) Bool (or (|top#8| state) (not true))) ; $assume$choose/time_stamps.v:10$71
(define-fun |top#9| ((state |top_s|)) (_ BitVec 16) (bvsub (|top#3| state) (|top#2| state))) ; \g2
(define-fun |top#10| ((state |top_s|)) (_ BitVec 16) (bvsub (|top#2| state) (|top#1| state))) ; \g1
(define-fun |top#11| ((state |top_s|)) (_ BitVec 16) (bvadd (|top#9| state) (|top#10| state))) ; $add$choose/time_stamps.v:12$63_Y
(define-fun |top#12| ((state |top_s|)) (_ BitVec 16) (bvsub (|top#4| state) (|top#3| state))) ; \g3
(define-fun |top#13| ((state |top_s|)) Bool (bvult (|top#11| state) (|top#12| state))) ; $0$formal$choose/time_stamps.v:11$8_CHECK[0:0]$31
(define-fun |top_u 1| ((state |top_s|)) Bool (or (|top#13| state) (not true))) ; $assume$choose/time_stamps.v:11$72
(define-fun |top#14| ((state |top_s|)) Bool (bvult #b0000001111101000 (|top#0| state))) ; $0$formal$choose/time_stamps.v:4$1_CHECK[0:0]$17
(define-fun |top_u 2| ((state |top_s|)) Bool (or (|top#14| state) (not true))) ; $assume$choose/time_stamps.v:4$65
(define-fun |top#15| ((state |top_s|)) Bool (bvult (|top#0| state) (|top#1| state))) ; $logic_and$choose/time_stamps.v:6$36.a
(define-fun |top#16| ((state |top_s|)) Bool (bvult (|top#1| state) (|top#2| state))) ; $logic_and$choose/time_stamps.v:6$36.b
(define-fun |top#17| ((state |top_s|)) (_ BitVec 1) (bvand (ite (|top#15| state) #b1 #b0) (ite (|top#16| state) #b1 #b0))) ; $logic_and$choose/time_stamps.v:6$36_Y
(define-fun |top#18| ((state |top_s|)) Bool (bvult (|top#2| state) (|top#3| state))) ; $logic_and$choose/time_stamps.v:6$38.b
(define-fun |top#19| ((state |top_s|)) (_ BitVec 1) (bvand (|top#17| state) (ite (|top#18| state) #b1 #b0))) ; $logic_and$choose/time_stamps.v:6$38_Y
(define-fun |top#20| ((state |top_s|)) Bool (bvult (|top#3| state) (|top#4| state))) ; $logic_and$choose/time_stamps.v:6$40.b
(define-fun |top#21| ((state |top_s|)) (_ BitVec 1) (bvand (|top#19| state) (ite (|top#20| state) #b1 #b0))) ; $logic_and$choose/time_stamps.v:6$40_Y
(define-fun |top#22| ((state |top_s|)) Bool (bvult (|top#4| state) (|top#5| state))) ; $logic_and$choose/time_stamps.v:6$42.b
(define-fun |top#23| ((state |top_s|)) (_ BitVec 1) (bvand (|top#21| state) (ite (|top#22| state) #b1 #b0))) ; $logic_and$choose/time_stamps.v:6$42_Y
(define-fun |top#24| ((state |top_s|)) Bool (bvult (|top#5| state) (|top#6| state))) ; $logic_and$choose/time_stamps.v:6$44.b
(define-fun |top#25| ((state |top_s|)) (_ BitVec 1) (bvand (|top#23| state) (ite (|top#24| state) #b1 #b0))) ; $logic_and$choose/time_stamps.v:6$44_Y
(define-fun |top#26| ((state |top_s|)) Bool (bvult (|top#6| state) (|top#7| state))) ; $logic_and$choose/time_stamps.v:6$46.b
(define-fun |top#27| ((state |top_s|)) (_ BitVec 1) (bvand (|top#25| state) (ite (|top#26| state) #b1 #b0))) ; $0$formal$choose/time_stamps.v:5$2_CHECK[0:0]$19
(define-fun |top_u 3| ((state |top_s|)) Bool (or (= ((_ extract 0 0) (|top#27| state)) #b1) (not true))) ; $assume$choose/time_stamps.v:5$66
(define-fun |top#28| ((state |top_s|)) (_ BitVec 16) (bvsub (|top#1| state) (|top#0| state))) ; \g0
(define-fun |top#29| ((state |top_s|)) Bool (bvult (|top#28| state) #b0000000000110010)) ; $ge$choose/time_stamps.v:7$47.less
(define-fun |top#30| ((state |top_s|)) (_ BitVec 1) (bvnot (ite (|top#29| state) #b1 #b0))) ; $ge$choose/time_stamps.v:7$47_Y
(define-fun |top#31| ((state |top_s|)) Bool (bvult (|top#10| state) #b0000000000110010)) ; $ge$choose/time_stamps.v:7$48.less
(define-fun |top#32| ((state |top_s|)) (_ BitVec 1) (bvnot (ite (|top#31| state) #b1 #b0))) ; $ge$choose/time_stamps.v:7$48_Y
(define-fun |top#33| ((state |top_s|)) (_ BitVec 1) (bvand (|top#30| state) (|top#32| state))) ; $logic_and$choose/time_stamps.v:7$49_Y
(define-fun |top#34| ((state |top_s|)) Bool (bvult (|top#9| state) #b0000000000110010)) ; $ge$choose/time_stamps.v:7$50.less
(define-fun |top#35| ((state |top_s|)) (_ BitVec 1) (bvnot (ite (|top#34| state) #b1 #b0))) ; $ge$choose/time_stamps.v:7$50_Y
(define-fun |top#36| ((state |top_s|)) (_ BitVec 1) (bvand (|top#33| state) (|top#35| state))) ; $logic_and$choose/time_stamps.v:7$51_Y
(define-fun |top#37| ((state |top_s|)) Bool (bvult (|top#12| state) #b0000000000110010)) ; $ge$choose/time_stamps.v:7$52.less
(define-fun |top#38| ((state |top_s|)) (_ BitVec 1) (bvnot (ite (|top#37| state) #b1 #b0))) ; $ge$choose/time_stamps.v:7$52_Y
(define-fun |top#39| ((state |top_s|)) (_ BitVec 1) (bvand (|top#36| state) (|top#38| state))) ; $0$formal$choose/time_stamps.v:6$3_CHECK[0:0]$21
(define-fun |top_u 4| ((state |top_s|)) Bool (or (= ((_ extract 0 0) (|top#39| state)) #b1) (not true))) ; $assume$choose/time_stamps.v:6$67
(define-fun |top#40| ((state |top_s|)) (_ BitVec 16) (bvsub (|top#5| state) (|top#4| state))) ; \g4
(define-fun |top#41| ((state |top_s|)) Bool (bvult #b0000001110000100 (|top#40| state))) ; $le$choose/time_stamps.v:8$54.less
(define-fun |top#42| ((state |top_s|)) (_ BitVec 1) (bvnot (ite (|top#41| state) #b1 #b0))) ; $le$choose/time_stamps.v:8$54_Y
(define-fun |top#43| ((state |top_s|)) (_ BitVec 16) (bvsub (|top#6| state) (|top#5| state))) ; \g5
(define-fun |top#44| ((state |top_s|)) Bool (bvult #b0000001110000100 (|top#43| state))) ; $le$choose/time_stamps.v:8$55.less
(define-fun |top#45| ((state |top_s|)) (_ BitVec 1) (bvnot (ite (|top#44| state) #b1 #b0))) ; $le$choose/time_stamps.v:8$55_Y
(define-fun |top#46| ((state |top_s|)) (_ BitVec 1) (bvand (|top#42| state) (|top#45| state))) ; $logic_and$choose/time_stamps.v:8$56_Y
(define-fun |top#47| ((state |top_s|)) (_ BitVec 16) (bvsub (|top#7| state) (|top#6| state))) ; \g6
(define-fun |top#48| ((state |top_s|)) Bool (bvult #b0000001110000100 (|top#47| state))) ; $le$choose/time_stamps.v:8$57.less
(define-fun |top#49| ((state |top_s|)) (_ BitVec 1) (bvnot (ite (|top#48| state) #b1 #b0))) ; $le$choose/time_stamps.v:8$57_Y
(define-fun |top#50| ((state |top_s|)) (_ BitVec 1) (bvand (|top#46| state) (|top#49| state))) ; $0$formal$choose/time_stamps.v:7$4_CHECK[0:0]$23
(define-fun |top_u 5| ((state |top_s|)) Bool (or (= ((_ extract 0 0) (|top#50| state)) #b1) (not true))) ; $assume$choose/time_stamps.v:7$68
(define-fun |top#51| ((state |top_s|)) (_ BitVec 16) (bvsub (|top#7| state) (|top#0| state))) ; $sub$choose/time_stamps.v:9$59_Y
(define-fun |top#52| ((state |top_s|)) Bool (= (|top#51| state) #b0011000000111001)) ; $0$formal$choose/time_stamps.v:8$5_CHECK[0:0]$25
(define-fun |top_u 6| ((state |top_s|)) Bool (or (|top#52| state) (not true))) ; $assume$choose/time_stamps.v:8$69
(define-fun |top#53| ((state |top_s|)) Bool (= ((_ extract 5 0) (|top#3| state)) #b000000)) ; $0$formal$choose/time_stamps.v:9$6_CHECK[0:0]$27
(define-fun |top_u 7| ((state |top_s|)) Bool (or (|top#53| state) (not true))) ; $assume$choose/time_stamps.v:9$70
(define-fun |top_a| ((state |top_s|)) Bool true)
(define-fun |top_u| ((state |top_s|)) Bool (and
  (|top_u 0| state)
  (|top_u 1| state)
  (|top_u 2| state)
  (|top_u 3| state)
  (|top_u 4| state)
  (|top_u 5| state)
  (|top_u 6| state)
  (|top_u 7| state)
))
(define-fun |top_i| ((state |top_s|)) Bool true)
(define-fun |top_h| ((state |top_s|)) Bool true)
(define-fun |top_t| ((state |top_s|) (next_state |top_s|)) Bool true) ; end of module top
(declare-fun s () |top_s|)
(assert (|top_u| s))
(check-sat)
