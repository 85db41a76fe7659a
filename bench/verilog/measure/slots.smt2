(set-logic QF_BV)
(define-sort |top_s| () (_ BitVec 97))
(define-fun |top_is| ((state |top_s|)) Bool (= ((_ extract 0 0) state) #b1))
(define-fun |top#0| ((state |top_s|)) (_ BitVec 16) ((_ extract 16 1) state)) ; \b0
(define-fun |top_n b0| ((state |top_s|)) (_ BitVec 16) (|top#0| state))
(define-fun |top#1| ((state |top_s|)) (_ BitVec 16) ((_ extract 32 17) state)) ; \b1
(define-fun |top_n b1| ((state |top_s|)) (_ BitVec 16) (|top#1| state))
(define-fun |top#2| ((state |top_s|)) (_ BitVec 16) ((_ extract 48 33) state)) ; \b2
(define-fun |top_n b2| ((state |top_s|)) (_ BitVec 16) (|top#2| state))
(define-fun |top#3| ((state |top_s|)) (_ BitVec 16) ((_ extract 64 49) state)) ; \b3
(define-fun |top_n b3| ((state |top_s|)) (_ BitVec 16) (|top#3| state))
(define-fun |top#4| ((state |top_s|)) (_ BitVec 8) ((_ extract 72 65) state)) ; \l0
(define-fun |top_n l0| ((state |top_s|)) (_ BitVec 8) (|top#4| state))
(define-fun |top#5| ((state |top_s|)) (_ BitVec 8) ((_ extract 80 73) state)) ; \l1
(define-fun |top_n l1| ((state |top_s|)) (_ BitVec 8) (|top#5| state))
(define-fun |top#6| ((state |top_s|)) (_ BitVec 8) ((_ extract 88 81) state)) ; \l2
(define-fun |top_n l2| ((state |top_s|)) (_ BitVec 8) (|top#6| state))
(define-fun |top#7| ((state |top_s|)) (_ BitVec 8) ((_ extract 96 89) state)) ; \l3
(define-fun |top_n l3| ((state |top_s|)) (_ BitVec 8) (|top#7| state))
(define-fun |top#8| ((state |top_s|)) Bool (bvult (|top#1| state) #b0000000001100100)) ; $ge$measure/slots.v:11$51.less
(define-fun |top#9| ((state |top_s|)) (_ BitVec 1) (bvnot (ite (|top#8| state) #b1 #b0))) ; $0$formal$measure/slots.v:10$7_CHECK[0:0]$27
(define-fun |top_u 0| ((state |top_s|)) Bool (or (= ((_ extract 0 0) (|top#9| state)) #b1) (not true))) ; $assume$measure/slots.v:10$64
(define-fun |top#10| ((state |top_s|)) (_ BitVec 10) (bvadd (concat #b00 (|top#4| state)) (concat #b00 (|top#5| state)))) ; $add$measure/slots.v:12$52_Y
(define-fun |top#11| ((state |top_s|)) (_ BitVec 10) (bvadd (|top#10| state) (concat #b00 (|top#6| state)))) ; $add$measure/slots.v:12$53_Y
(define-fun |top#12| ((state |top_s|)) (_ BitVec 10) (bvadd (|top#11| state) (concat #b00 (|top#7| state)))) ; $add$measure/slots.v:12$54_Y
(define-fun |top#13| ((state |top_s|)) Bool (bvult #b0111110100 (|top#12| state))) ; $0$formal$measure/slots.v:11$8_CHECK[0:0]$29
(define-fun |top_u 1| ((state |top_s|)) Bool (or (|top#13| state) (not true))) ; $assume$measure/slots.v:11$65
(define-fun |top#14| ((state |top_s|)) (_ BitVec 16) (bvadd (|top#1| state) (concat #b00000000 (|top#5| state)))) ; \e1
(define-fun |top#15| ((state |top_s|)) (_ BitVec 16) (bvsub (|top#2| state) (|top#14| state))) ; $sub$measure/slots.v:13$56_Y
(define-fun |top#16| ((state |top_s|)) Bool (= (|top#15| state) #b0000000111000010)) ; $0$formal$measure/slots.v:12$9_CHECK[0:0]$31
(define-fun |top_u 2| ((state |top_s|)) Bool (or (|top#16| state) (not true))) ; $assume$measure/slots.v:12$66
(define-fun |top#17| ((state |top_s|)) Bool (bvult (|top#4| state) #b00101000)) ; $ge$measure/slots.v:5$33.less
(define-fun |top#18| ((state |top_s|)) (_ BitVec 1) (bvnot (ite (|top#17| state) #b1 #b0))) ; $ge$measure/slots.v:5$33_Y
(define-fun |top#19| ((state |top_s|)) Bool (bvult (|top#5| state) #b00111100)) ; $ge$measure/slots.v:5$34.less
(define-fun |top#20| ((state |top_s|)) (_ BitVec 1) (bvnot (ite (|top#19| state) #b1 #b0))) ; $ge$measure/slots.v:5$34_Y
(define-fun |top#21| ((state |top_s|)) (_ BitVec 1) (bvand (|top#18| state) (|top#20| state))) ; $logic_and$measure/slots.v:5$35_Y
(define-fun |top#22| ((state |top_s|)) Bool (bvult (|top#6| state) #b01011010)) ; $ge$measure/slots.v:5$36.less
(define-fun |top#23| ((state |top_s|)) (_ BitVec 1) (bvnot (ite (|top#22| state) #b1 #b0))) ; $ge$measure/slots.v:5$36_Y
(define-fun |top#24| ((state |top_s|)) (_ BitVec 1) (bvand (|top#21| state) (|top#23| state))) ; $logic_and$measure/slots.v:5$37_Y
(define-fun |top#25| ((state |top_s|)) Bool (bvult (|top#7| state) #b01111000)) ; $ge$measure/slots.v:5$38.less
(define-fun |top#26| ((state |top_s|)) (_ BitVec 1) (bvnot (ite (|top#25| state) #b1 #b0))) ; $ge$measure/slots.v:5$38_Y
(define-fun |top#27| ((state |top_s|)) (_ BitVec 1) (bvand (|top#24| state) (|top#26| state))) ; $0$formal$measure/slots.v:4$1_CHECK[0:0]$15
(define-fun |top_u 3| ((state |top_s|)) Bool (or (= ((_ extract 0 0) (|top#27| state)) #b1) (not true))) ; $assume$measure/slots.v:4$58
(define-fun |top#28| ((state |top_s|)) Bool (= ((_ extract 2 0) (|top#0| state)) #b000)) ; $eq$measure/slots.v:6$40_Y
(define-fun |top#29| ((state |top_s|)) Bool (= ((_ extract 3 0) (|top#1| state)) #b0000)) ; $eq$measure/slots.v:6$41_Y
(define-fun |top#30| ((state |top_s|)) (_ BitVec 1) (bvand (ite (|top#28| state) #b1 #b0) (ite (|top#29| state) #b1 #b0))) ; $logic_and$measure/slots.v:6$42_Y
(define-fun |top#31| ((state |top_s|)) Bool (= ((_ extract 4 0) (|top#2| state)) #b00000)) ; $eq$measure/slots.v:6$43_Y
(define-fun |top#32| ((state |top_s|)) (_ BitVec 1) (bvand (|top#30| state) (ite (|top#31| state) #b1 #b0))) ; $logic_and$measure/slots.v:6$44_Y
(define-fun |top#33| ((state |top_s|)) Bool (= ((_ extract 1 0) (|top#3| state)) #b11)) ; $eq$measure/slots.v:6$45_Y
(define-fun |top#34| ((state |top_s|)) (_ BitVec 1) (bvand (|top#32| state) (ite (|top#33| state) #b1 #b0))) ; $0$formal$measure/slots.v:5$2_CHECK[0:0]$17
(define-fun |top_u 4| ((state |top_s|)) Bool (or (= ((_ extract 0 0) (|top#34| state)) #b1) (not true))) ; $assume$measure/slots.v:5$59
(define-fun |top#35| ((state |top_s|)) Bool (bvult (|top#0| state) (|top#14| state))) ; $le$measure/slots.v:7$47.less
(define-fun |top#36| ((state |top_s|)) (_ BitVec 1) (bvnot (ite (|top#35| state) #b1 #b0))) ; $0$formal$measure/slots.v:6$3_CHECK[0:0]$19
(define-fun |top_u 5| ((state |top_s|)) Bool (or (= ((_ extract 0 0) (|top#36| state)) #b1) (not true))) ; $assume$measure/slots.v:6$60
(define-fun |top#37| ((state |top_s|)) (_ BitVec 16) (bvadd (|top#0| state) (concat #b00000000 (|top#4| state)))) ; \e0
(define-fun |top#38| ((state |top_s|)) Bool (bvult (|top#3| state) (|top#37| state))) ; $le$measure/slots.v:8$48.less
(define-fun |top#39| ((state |top_s|)) (_ BitVec 1) (bvnot (ite (|top#38| state) #b1 #b0))) ; $0$formal$measure/slots.v:7$4_CHECK[0:0]$21
(define-fun |top_u 6| ((state |top_s|)) Bool (or (= ((_ extract 0 0) (|top#39| state)) #b1) (not true))) ; $assume$measure/slots.v:7$61
(define-fun |top#40| ((state |top_s|)) (_ BitVec 16) (bvadd (|top#3| state) (concat #b00000000 (|top#7| state)))) ; \e3
(define-fun |top#41| ((state |top_s|)) Bool (bvult (|top#2| state) (|top#40| state))) ; $le$measure/slots.v:9$49.less
(define-fun |top#42| ((state |top_s|)) (_ BitVec 1) (bvnot (ite (|top#41| state) #b1 #b0))) ; $0$formal$measure/slots.v:8$5_CHECK[0:0]$23
(define-fun |top_u 7| ((state |top_s|)) Bool (or (= ((_ extract 0 0) (|top#42| state)) #b1) (not true))) ; $assume$measure/slots.v:8$62
(define-fun |top#43| ((state |top_s|)) (_ BitVec 16) (bvadd (|top#2| state) (concat #b00000000 (|top#6| state)))) ; \e2
(define-fun |top#44| ((state |top_s|)) Bool (bvult #b0000001111101000 (|top#43| state))) ; $le$measure/slots.v:10$50.less
(define-fun |top#45| ((state |top_s|)) (_ BitVec 1) (bvnot (ite (|top#44| state) #b1 #b0))) ; $0$formal$measure/slots.v:9$6_CHECK[0:0]$25
(define-fun |top_u 8| ((state |top_s|)) Bool (or (= ((_ extract 0 0) (|top#45| state)) #b1) (not true))) ; $assume$measure/slots.v:9$63
(define-fun |top_a| ((state |top_s|)) Bool true)
(define-fun |top_u| ((state |top_s|)) Bool (and
  (|top_u 0| state)
  (|top_u 1| state)
  (|top_u 2| state)
  (|top_u 3| state)
  (|top_u 4| state)
  (|top_u 5| state)
  (|top_u 6| state)
  (|top_u 7| state)
  (|top_u 8| state)
))
(define-fun |top_i| ((state |top_s|)) Bool true)
(define-fun |top_h| ((state |top_s|)) Bool true)
(define-fun |top_t| ((state |top_s|) (next_state |top_s|)) Bool true) ; end of module top
(declare-fun s () |top_s|)
(assert (|top_u| s))
(check-sat)
