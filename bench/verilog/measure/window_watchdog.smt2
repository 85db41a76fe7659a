(set-logic QF_BV)
(define-sort |top_s| () (_ BitVec 51))
(define-fun |top_is| ((state |top_s|)) Bool (= ((_ extract 0 0) state) #b1))
(define-fun |top#0| ((state |top_s|)) (_ BitVec 10) ((_ extract 10 1) state)) ; \g0
(define-fun |top_n g0| ((state |top_s|)) (_ BitVec 10) (|top#0| state))
(define-fun |top#1| ((state |top_s|)) (_ BitVec 10) ((_ extract 20 11) state)) ; \g1
(define-fun |top_n g1| ((state |top_s|)) (_ BitVec 10) (|top#1| state))
(define-fun |top#2| ((state |top_s|)) (_ BitVec 10) ((_ extract 30 21) state)) ; \g2
(define-fun |top_n g2| ((state |top_s|)) (_ BitVec 10) (|top#2| state))
(define-fun |top#3| ((state |top_s|)) (_ BitVec 10) ((_ extract 40 31) state)) ; \g3
(define-fun |top_n g3| ((state |top_s|)) (_ BitVec 10) (|top#3| state))
(define-fun |top#4| ((state |top_s|)) (_ BitVec 10) ((_ extract 50 41) state)) ; \g4
(define-fun |top_n g4| ((state |top_s|)) (_ BitVec 10) (|top#4| state))
(define-fun |top#5| ((state |top_s|)) Bool (bvult #b1001011000 (|top#0| state))) ; $gt$measure/window_watchdog.v:4$64_Y
(define-fun |top#6| ((state |top_s|)) (_ BitVec 2) (ite (|top#5| state) #b01 #b10)) ; { \w1 [9] \w1 [7] }
(define-fun |top#7| ((state |top_s|)) Bool (bvult (concat #b00 (concat ((_ extract 1 1) (|top#6| state)) (concat #b1 (concat ((_ extract 0 0) (|top#6| state)) (concat #b0 (concat (|top#6| state) #b00)))))) (|top#1| state))) ; $gt$measure/window_watchdog.v:11$40_Y
(define-fun |top#8| ((state |top_s|)) Bool (bvult (concat ((_ extract 1 1) (|top#6| state)) (concat #b1 (concat ((_ extract 0 0) (|top#6| state)) (concat #b0 (concat (|top#6| state) #b0000))))) (|top#1| state))) ; $le$measure/window_watchdog.v:11$41.less
(define-fun |top#9| ((state |top_s|)) (_ BitVec 1) (bvnot (ite (|top#8| state) #b1 #b0))) ; $le$measure/window_watchdog.v:11$41_Y
(define-fun |top#10| ((state |top_s|)) (_ BitVec 1) (bvand (ite (|top#7| state) #b1 #b0) (|top#9| state))) ; $0$formal$measure/window_watchdog.v:10$10_CHECK[0:0]$23
(define-fun |top_u 0| ((state |top_s|)) Bool (or (= ((_ extract 0 0) (|top#10| state)) #b1) (not true))) ; $assume$measure/window_watchdog.v:10$98
(define-fun |top#11| ((state |top_s|)) (_ BitVec 8) (bvsub (concat ((_ extract 1 1) (|top#6| state)) (concat #b1 (concat ((_ extract 0 0) (|top#6| state)) (concat #b0 (concat (|top#6| state) #b00))))) (concat #b00 (concat ((_ extract 1 1) (|top#6| state)) (concat #b1 (concat ((_ extract 0 0) (|top#6| state)) (concat #b0 (|top#6| state)))))))) ; $sub$measure/window_watchdog.v:4$73_Y [9:2]
(define-fun |top#12| ((state |top_s|)) Bool (bvult (concat (|top#11| state) #b00) (|top#1| state))) ; $gt$measure/window_watchdog.v:4$74_Y
(define-fun |top#13| ((state |top_s|)) (_ BitVec 5) (ite (|top#12| state) (concat ((_ extract 1 1) (|top#6| state)) (concat #b10 (|top#6| state))) (concat #b1 (concat ((_ extract 0 0) (|top#6| state)) (concat (|top#6| state) #b0))))) ; { \w2 [8:7] \w2 [9] \w2 [4] \w2 [6] }
(define-fun |top#14| ((state |top_s|)) Bool (bvult (concat #b00 (concat ((_ extract 2 2) (|top#13| state)) (concat ((_ extract 4 3) (|top#13| state)) (concat ((_ extract 0 0) (|top#13| state)) (concat ((_ extract 2 0) (|top#13| state)) #b0))))) (|top#2| state))) ; $gt$measure/window_watchdog.v:12$44_Y
(define-fun |top#15| ((state |top_s|)) Bool (bvult (concat ((_ extract 2 2) (|top#13| state)) (concat ((_ extract 4 3) (|top#13| state)) (concat ((_ extract 0 0) (|top#13| state)) (concat ((_ extract 2 0) (|top#13| state)) #b000)))) (|top#2| state))) ; $le$measure/window_watchdog.v:12$45.less
(define-fun |top#16| ((state |top_s|)) (_ BitVec 1) (bvnot (ite (|top#15| state) #b1 #b0))) ; $le$measure/window_watchdog.v:12$45_Y
(define-fun |top#17| ((state |top_s|)) (_ BitVec 1) (bvand (ite (|top#14| state) #b1 #b0) (|top#16| state))) ; $0$formal$measure/window_watchdog.v:11$11_CHECK[0:0]$25
(define-fun |top_u 1| ((state |top_s|)) Bool (or (= ((_ extract 0 0) (|top#17| state)) #b1) (not true))) ; $assume$measure/window_watchdog.v:11$99
(define-fun |top#18| ((state |top_s|)) (_ BitVec 9) (bvsub (concat ((_ extract 2 2) (|top#13| state)) (concat ((_ extract 4 3) (|top#13| state)) (concat ((_ extract 0 0) (|top#13| state)) (concat ((_ extract 2 0) (|top#13| state)) #b00)))) (concat #b00 (concat ((_ extract 2 2) (|top#13| state)) (concat ((_ extract 4 3) (|top#13| state)) (concat ((_ extract 0 0) (|top#13| state)) ((_ extract 2 0) (|top#13| state)))))))) ; $sub$measure/window_watchdog.v:4$83_Y [9:1]
(define-fun |top#19| ((state |top_s|)) Bool (bvult (concat (|top#18| state) #b0) (|top#2| state))) ; $gt$measure/window_watchdog.v:4$84_Y
(define-fun |top#20| ((state |top_s|)) (_ BitVec 8) (ite (|top#19| state) (concat #b0 (concat ((_ extract 2 2) (|top#13| state)) (concat ((_ extract 4 3) (|top#13| state)) (concat ((_ extract 0 0) (|top#13| state)) ((_ extract 2 0) (|top#13| state)))))) (concat ((_ extract 2 2) (|top#13| state)) (concat ((_ extract 4 3) (|top#13| state)) (concat ((_ extract 0 0) (|top#13| state)) (concat ((_ extract 2 0) (|top#13| state)) #b0)))))) ; \w3 [9:2]
(define-fun |top#21| ((state |top_s|)) Bool (bvult (concat #b00 (|top#20| state)) (|top#3| state))) ; $gt$measure/window_watchdog.v:13$48_Y
(define-fun |top#22| ((state |top_s|)) Bool (bvult (concat (|top#20| state) #b00) (|top#3| state))) ; $le$measure/window_watchdog.v:13$49.less
(define-fun |top#23| ((state |top_s|)) (_ BitVec 1) (bvnot (ite (|top#22| state) #b1 #b0))) ; $le$measure/window_watchdog.v:13$49_Y
(define-fun |top#24| ((state |top_s|)) (_ BitVec 1) (bvand (ite (|top#21| state) #b1 #b0) (|top#23| state))) ; $0$formal$measure/window_watchdog.v:12$12_CHECK[0:0]$27
(define-fun |top_u 2| ((state |top_s|)) Bool (or (= ((_ extract 0 0) (|top#24| state)) #b1) (not true))) ; $assume$measure/window_watchdog.v:12$100
(define-fun |top#25| ((state |top_s|)) (_ BitVec 10) (bvsub (concat (|top#20| state) #b00) (concat #b00 (|top#20| state)))) ; $sub$measure/window_watchdog.v:4$93_Y
(define-fun |top#26| ((state |top_s|)) Bool (bvult (|top#25| state) (|top#3| state))) ; $gt$measure/window_watchdog.v:4$94_Y
(define-fun |top#27| ((state |top_s|)) (_ BitVec 9) (ite (|top#26| state) (concat #b0 (|top#20| state)) (concat (|top#20| state) #b0))) ; \w4 [9:1]
(define-fun |top#28| ((state |top_s|)) Bool (bvult (concat #b00 ((_ extract 8 1) (|top#27| state))) (|top#4| state))) ; $gt$measure/window_watchdog.v:14$52_Y
(define-fun |top#29| ((state |top_s|)) Bool (bvult (concat (|top#27| state) #b0) (|top#4| state))) ; $le$measure/window_watchdog.v:14$53.less
(define-fun |top#30| ((state |top_s|)) (_ BitVec 1) (bvnot (ite (|top#29| state) #b1 #b0))) ; $le$measure/window_watchdog.v:14$53_Y
(define-fun |top#31| ((state |top_s|)) (_ BitVec 1) (bvand (ite (|top#28| state) #b1 #b0) (|top#30| state))) ; $0$formal$measure/window_watchdog.v:13$13_CHECK[0:0]$29
(define-fun |top_u 3| ((state |top_s|)) Bool (or (= ((_ extract 0 0) (|top#31| state)) #b1) (not true))) ; $assume$measure/window_watchdog.v:13$101
(define-fun |top#32| ((state |top_s|)) (_ BitVec 13) (bvadd (concat #b000 (|top#0| state)) (concat #b000 (|top#1| state)))) ; $add$measure/window_watchdog.v:8$16_Y
(define-fun |top#33| ((state |top_s|)) (_ BitVec 13) (bvadd (|top#32| state) (concat #b000 (|top#2| state)))) ; $add$measure/window_watchdog.v:8$17_Y
(define-fun |top#34| ((state |top_s|)) (_ BitVec 13) (bvadd (|top#33| state) (concat #b000 (|top#3| state)))) ; $add$measure/window_watchdog.v:8$18_Y
(define-fun |top#35| ((state |top_s|)) (_ BitVec 13) (bvadd (|top#34| state) (concat #b000 (|top#4| state)))) ; \total
(define-fun |top#36| ((state |top_s|)) Bool (= (|top#35| state) #b0011011110001)) ; $0$formal$measure/window_watchdog.v:14$14_CHECK[0:0]$31
(define-fun |top_u 4| ((state |top_s|)) Bool (or (|top#36| state) (not true))) ; $assume$measure/window_watchdog.v:14$102
(define-fun |top#37| ((state |top_s|)) Bool (= (|top#27| state) #b001100100)) ; $0$formal$measure/window_watchdog.v:15$15_CHECK[0:0]$33
(define-fun |top_u 5| ((state |top_s|)) Bool (or (|top#37| state) (not true))) ; $assume$measure/window_watchdog.v:15$103
(define-fun |top#38| ((state |top_s|)) Bool (bvult #b0011001000 (|top#0| state))) ; $gt$measure/window_watchdog.v:10$36_Y
(define-fun |top#39| ((state |top_s|)) Bool (bvult #b1100100000 (|top#0| state))) ; $le$measure/window_watchdog.v:10$37.less
(define-fun |top#40| ((state |top_s|)) (_ BitVec 1) (bvnot (ite (|top#39| state) #b1 #b0))) ; $le$measure/window_watchdog.v:10$37_Y
(define-fun |top#41| ((state |top_s|)) (_ BitVec 1) (bvand (ite (|top#38| state) #b1 #b0) (|top#40| state))) ; $0$formal$measure/window_watchdog.v:9$9_CHECK[0:0]$21
(define-fun |top_u 6| ((state |top_s|)) Bool (or (= ((_ extract 0 0) (|top#41| state)) #b1) (not true))) ; $assume$measure/window_watchdog.v:9$97
(define-fun |top_a| ((state |top_s|)) Bool true)
(define-fun |top_u| ((state |top_s|)) Bool (and
  (|top_u 0| state)
  (|top_u 1| state)
  (|top_u 2| state)
  (|top_u 3| state)
  (|top_u 4| state)
  (|top_u 5| state)
  (|top_u 6| state)
))
(define-fun |top_i| ((state |top_s|)) Bool true)
(define-fun |top_h| ((state |top_s|)) Bool true)
(define-fun |top_t| ((state |top_s|) (next_state |top_s|)) Bool true) ; end of module top
(declare-fun s () |top_s|)
(assert (|top_u| s))
(check-sat)
