(set-logic QF_BV)
(define-sort |top_s| () (_ BitVec 65))
(define-fun |top_is| ((state |top_s|)) Bool (= ((_ extract 0 0) state) #b1))
(define-fun |top#0| ((state |top_s|)) (_ BitVec 16) ((_ extract 16 1) state)) ; \a
(define-fun |top_n a| ((state |top_s|)) (_ BitVec 16) (|top#0| state))
(define-fun |top#1| ((state |top_s|)) (_ BitVec 16) ((_ extract 32 17) state)) ; \b
(define-fun |top_n b| ((state |top_s|)) (_ BitVec 16) (|top#1| state))
(define-fun |top#2| ((state |top_s|)) (_ BitVec 16) ((_ extract 48 33) state)) ; \before
(define-fun |top_n before| ((state |top_s|)) (_ BitVec 16) (|top#2| state))
(define-fun |top#3| ((state |top_s|)) (_ BitVec 16) ((_ extract 64 49) state)) ; \c
(define-fun |top_n c| ((state |top_s|)) (_ BitVec 16) (|top#3| state))
(define-fun |top#4| ((state |top_s|)) Bool (bvult (|top#1| state) (|top#0| state))) ; $gt$measure/voter.v:11$46_Y
(define-fun |top#5| ((state |top_s|)) Bool (bvult (|top#3| state) (|top#1| state))) ; $gt$measure/voter.v:11$47_Y
(define-fun |top#6| ((state |top_s|)) (_ BitVec 1) (bvand (ite (|top#4| state) #b1 #b0) (ite (|top#5| state) #b1 #b0))) ; $0$formal$measure/voter.v:10$6_CHECK[0:0]$26
(define-fun |top_u 0| ((state |top_s|)) Bool (or (= ((_ extract 0 0) (|top#6| state)) #b1) (not true))) ; $assume$measure/voter.v:10$54
(define-fun |top#7| ((state |top_s|)) (_ BitVec 16) (bvand (|top#0| state) (|top#1| state))) ; $and$measure/voter.v:3$7_Y
(define-fun |top#8| ((state |top_s|)) (_ BitVec 16) (bvand (|top#0| state) (|top#3| state))) ; $and$measure/voter.v:3$8_Y
(define-fun |top#9| ((state |top_s|)) (_ BitVec 16) (bvor (|top#7| state) (|top#8| state))) ; $or$measure/voter.v:3$9_Y
(define-fun |top#10| ((state |top_s|)) (_ BitVec 16) (bvand (|top#1| state) (|top#3| state))) ; $and$measure/voter.v:3$10_Y
(define-fun |top#11| ((state |top_s|)) (_ BitVec 16) (bvor (|top#9| state) (|top#10| state))) ; \voted
(define-fun |top#12| ((state |top_s|)) (_ BitVec 16) (bvxor (|top#0| state) (|top#11| state))) ; \da
(define-fun |top#13| ((state |top_s|)) Bool (distinct (|top#12| state) #b0000000000000000)) ; $logic_and$measure/voter.v:6$32.a
(define-fun |top#14| ((state |top_s|)) (_ BitVec 16) (bvsub (|top#12| state) #b0000000000000001)) ; $sub$measure/voter.v:6$29_Y
(define-fun |top#15| ((state |top_s|)) (_ BitVec 16) (bvand (|top#12| state) (|top#14| state))) ; $and$measure/voter.v:6$30_Y
(define-fun |top#16| ((state |top_s|)) Bool (= (|top#15| state) #b0000000000000000)) ; $eq$measure/voter.v:6$31_Y
(define-fun |top#17| ((state |top_s|)) (_ BitVec 1) (bvand (ite (|top#13| state) #b1 #b0) (ite (|top#16| state) #b1 #b0))) ; $0$formal$measure/voter.v:5$1_CHECK[0:0]$16
(define-fun |top_u 1| ((state |top_s|)) Bool (or (= ((_ extract 0 0) (|top#17| state)) #b1) (not true))) ; $assume$measure/voter.v:5$49
(define-fun |top#18| ((state |top_s|)) (_ BitVec 16) (bvxor (|top#1| state) (|top#11| state))) ; \db
(define-fun |top#19| ((state |top_s|)) Bool (distinct (|top#18| state) #b0000000000000000)) ; $logic_and$measure/voter.v:7$37.a
(define-fun |top#20| ((state |top_s|)) (_ BitVec 16) (bvsub (|top#18| state) #b0000000000000001)) ; $sub$measure/voter.v:7$34_Y
(define-fun |top#21| ((state |top_s|)) (_ BitVec 16) (bvand (|top#18| state) (|top#20| state))) ; $and$measure/voter.v:7$35_Y
(define-fun |top#22| ((state |top_s|)) Bool (= (|top#21| state) #b0000000000000000)) ; $eq$measure/voter.v:7$36_Y
(define-fun |top#23| ((state |top_s|)) (_ BitVec 1) (bvand (ite (|top#19| state) #b1 #b0) (ite (|top#22| state) #b1 #b0))) ; $0$formal$measure/voter.v:6$2_CHECK[0:0]$18
(define-fun |top_u 2| ((state |top_s|)) Bool (or (= ((_ extract 0 0) (|top#23| state)) #b1) (not true))) ; $assume$measure/voter.v:6$50
(define-fun |top#24| ((state |top_s|)) (_ BitVec 16) (bvxor (|top#3| state) (|top#11| state))) ; \dc
(define-fun |top#25| ((state |top_s|)) Bool (distinct (|top#24| state) #b0000000000000000)) ; $logic_and$measure/voter.v:8$42.a
(define-fun |top#26| ((state |top_s|)) (_ BitVec 16) (bvsub (|top#24| state) #b0000000000000001)) ; $sub$measure/voter.v:8$39_Y
(define-fun |top#27| ((state |top_s|)) (_ BitVec 16) (bvand (|top#24| state) (|top#26| state))) ; $and$measure/voter.v:8$40_Y
(define-fun |top#28| ((state |top_s|)) Bool (= (|top#27| state) #b0000000000000000)) ; $eq$measure/voter.v:8$41_Y
(define-fun |top#29| ((state |top_s|)) (_ BitVec 1) (bvand (ite (|top#25| state) #b1 #b0) (ite (|top#28| state) #b1 #b0))) ; $0$formal$measure/voter.v:7$3_CHECK[0:0]$20
(define-fun |top_u 3| ((state |top_s|)) Bool (or (= ((_ extract 0 0) (|top#29| state)) #b1) (not true))) ; $assume$measure/voter.v:7$51
(define-fun |top#30| ((state |top_s|)) (_ BitVec 16) (bvadd (|top#2| state) #b0000000000000001)) ; $add$measure/voter.v:9$43_Y
(define-fun |top#31| ((state |top_s|)) Bool (= (|top#11| state) (|top#30| state))) ; $0$formal$measure/voter.v:8$4_CHECK[0:0]$22
(define-fun |top_u 4| ((state |top_s|)) Bool (or (|top#31| state) (not true))) ; $assume$measure/voter.v:8$52
(define-fun |top#32| ((state |top_s|)) Bool (= ((_ extract 7 0) (|top#2| state)) #b11111111)) ; $0$formal$measure/voter.v:9$5_CHECK[0:0]$24
(define-fun |top_u 5| ((state |top_s|)) Bool (or (|top#32| state) (not true))) ; $assume$measure/voter.v:9$53
(define-fun |top_a| ((state |top_s|)) Bool true)
(define-fun |top_u| ((state |top_s|)) Bool (and
  (|top_u 0| state)
  (|top_u 1| state)
  (|top_u 2| state)
  (|top_u 3| state)
  (|top_u 4| state)
  (|top_u 5| state)
))
(define-fun |top_i| ((state |top_s|)) Bool true)
(define-fun |top_h| ((state |top_s|)) Bool true)
(define-fun |top_t| ((state |top_s|) (next_state |top_s|)) Bool true) ; end of module top
(declare-fun s () |top_s|)
(assert (|top_u| s))
(check-sat)
