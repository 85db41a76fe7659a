(set-logic QF_BV)
(define-sort |top_s| () (_ BitVec 41))
(define-fun |top_is| ((state |top_s|)) Bool (= ((_ extract 0 0) state) #b1))
(define-fun |top#0| ((state |top_s|)) (_ BitVec 10) ((_ extract 10 1) state)) ; \a
(define-fun |top_n a| ((state |top_s|)) (_ BitVec 10) (|top#0| state))
(define-fun |top#1| ((state |top_s|)) (_ BitVec 10) ((_ extract 20 11) state)) ; \b
(define-fun |top_n b| ((state |top_s|)) (_ BitVec 10) (|top#1| state))
(define-fun |top#2| ((state |top_s|)) (_ BitVec 10) ((_ extract 30 21) state)) ; \c
(define-fun |top_n c| ((state |top_s|)) (_ BitVec 10) (|top#2| state))
(define-fun |top#3| ((state |top_s|)) (_ BitVec 10) ((_ extract 40 31) state)) ; \d
(define-fun |top_n d| ((state |top_s|)) (_ BitVec 10) (|top#3| state))
(define-fun |top#4| ((state |top_s|)) (_ BitVec 22) (bvmul (concat ((_ extract 9 9) (|top#0| state)) (concat ((_ extract 9 9) (|top#0| state)) (concat ((_ extract 9 9) (|top#0| state)) (concat ((_ extract 9 9) (|top#0| state)) (concat ((_ extract 9 9) (|top#0| state)) (concat ((_ extract 9 9) (|top#0| state)) (concat ((_ extract 9 9) (|top#0| state)) (concat ((_ extract 9 9) (|top#0| state)) (concat ((_ extract 9 9) (|top#0| state)) (concat ((_ extract 9 9) (|top#0| state)) (concat ((_ extract 9 9) (|top#0| state)) (concat ((_ extract 9 9) (|top#0| state)) (|top#0| state))))))))))))) (concat ((_ extract 9 9) (|top#0| state)) (concat ((_ extract 9 9) (|top#0| state)) (concat ((_ extract 9 9) (|top#0| state)) (concat ((_ extract 9 9) (|top#0| state)) (concat ((_ extract 9 9) (|top#0| state)) (concat ((_ extract 9 9) (|top#0| state)) (concat ((_ extract 9 9) (|top#0| state)) (concat ((_ extract 9 9) (|top#0| state)) (concat ((_ extract 9 9) (|top#0| state)) (concat ((_ extract 9 9) (|top#0| state)) (concat ((_ extract 9 9) (|top#0| state)) (concat ((_ extract 9 9) (|top#0| state)) (|top#0| state))))))))))))))) ; \aa
(define-fun |top#5| ((state |top_s|)) (_ BitVec 22) (bvmul (concat ((_ extract 9 9) (|top#1| state)) (concat ((_ extract 9 9) (|top#1| state)) (concat ((_ extract 9 9) (|top#1| state)) (concat ((_ extract 9 9) (|top#1| state)) (concat ((_ extract 9 9) (|top#1| state)) (concat ((_ extract 9 9) (|top#1| state)) (concat ((_ extract 9 9) (|top#1| state)) (concat ((_ extract 9 9) (|top#1| state)) (concat ((_ extract 9 9) (|top#1| state)) (concat ((_ extract 9 9) (|top#1| state)) (concat ((_ extract 9 9) (|top#1| state)) (concat ((_ extract 9 9) (|top#1| state)) (|top#1| state))))))))))))) (concat ((_ extract 9 9) (|top#1| state)) (concat ((_ extract 9 9) (|top#1| state)) (concat ((_ extract 9 9) (|top#1| state)) (concat ((_ extract 9 9) (|top#1| state)) (concat ((_ extract 9 9) (|top#1| state)) (concat ((_ extract 9 9) (|top#1| state)) (concat ((_ extract 9 9) (|top#1| state)) (concat ((_ extract 9 9) (|top#1| state)) (concat ((_ extract 9 9) (|top#1| state)) (concat ((_ extract 9 9) (|top#1| state)) (concat ((_ extract 9 9) (|top#1| state)) (concat ((_ extract 9 9) (|top#1| state)) (|top#1| state))))))))))))))) ; \bb
(define-fun |top#6| ((state |top_s|)) (_ BitVec 22) (bvadd (|top#4| state) (|top#5| state))) ; $add$measure/rms.v:4$9_Y
(define-fun |top#7| ((state |top_s|)) (_ BitVec 22) (bvmul (concat ((_ extract 9 9) (|top#2| state)) (concat ((_ extract 9 9) (|top#2| state)) (concat ((_ extract 9 9) (|top#2| state)) (concat ((_ extract 9 9) (|top#2| state)) (concat ((_ extract 9 9) (|top#2| state)) (concat ((_ extract 9 9) (|top#2| state)) (concat ((_ extract 9 9) (|top#2| state)) (concat ((_ extract 9 9) (|top#2| state)) (concat ((_ extract 9 9) (|top#2| state)) (concat ((_ extract 9 9) (|top#2| state)) (concat ((_ extract 9 9) (|top#2| state)) (concat ((_ extract 9 9) (|top#2| state)) (|top#2| state))))))))))))) (concat ((_ extract 9 9) (|top#2| state)) (concat ((_ extract 9 9) (|top#2| state)) (concat ((_ extract 9 9) (|top#2| state)) (concat ((_ extract 9 9) (|top#2| state)) (concat ((_ extract 9 9) (|top#2| state)) (concat ((_ extract 9 9) (|top#2| state)) (concat ((_ extract 9 9) (|top#2| state)) (concat ((_ extract 9 9) (|top#2| state)) (concat ((_ extract 9 9) (|top#2| state)) (concat ((_ extract 9 9) (|top#2| state)) (concat ((_ extract 9 9) (|top#2| state)) (concat ((_ extract 9 9) (|top#2| state)) (|top#2| state))))))))))))))) ; \cc
(define-fun |top#8| ((state |top_s|)) (_ BitVec 22) (bvadd (|top#6| state) (|top#7| state))) ; $add$measure/rms.v:4$10_Y
(define-fun |top#9| ((state |top_s|)) (_ BitVec 22) (bvmul (concat ((_ extract 9 9) (|top#3| state)) (concat ((_ extract 9 9) (|top#3| state)) (concat ((_ extract 9 9) (|top#3| state)) (concat ((_ extract 9 9) (|top#3| state)) (concat ((_ extract 9 9) (|top#3| state)) (concat ((_ extract 9 9) (|top#3| state)) (concat ((_ extract 9 9) (|top#3| state)) (concat ((_ extract 9 9) (|top#3| state)) (concat ((_ extract 9 9) (|top#3| state)) (concat ((_ extract 9 9) (|top#3| state)) (concat ((_ extract 9 9) (|top#3| state)) (concat ((_ extract 9 9) (|top#3| state)) (|top#3| state))))))))))))) (concat ((_ extract 9 9) (|top#3| state)) (concat ((_ extract 9 9) (|top#3| state)) (concat ((_ extract 9 9) (|top#3| state)) (concat ((_ extract 9 9) (|top#3| state)) (concat ((_ extract 9 9) (|top#3| state)) (concat ((_ extract 9 9) (|top#3| state)) (concat ((_ extract 9 9) (|top#3| state)) (concat ((_ extract 9 9) (|top#3| state)) (concat ((_ extract 9 9) (|top#3| state)) (concat ((_ extract 9 9) (|top#3| state)) (concat ((_ extract 9 9) (|top#3| state)) (concat ((_ extract 9 9) (|top#3| state)) (|top#3| state))))))))))))))) ; \dd
(define-fun |top#10| ((state |top_s|)) (_ BitVec 22) (bvadd (|top#8| state) (|top#9| state))) ; { \energy [21] \energy [18:0] $add$measure/rms.v:4$11_Y [1:0] }
(define-fun |top#11| ((state |top_s|)) Bool (bvslt #b0000001110111001001000 (concat ((_ extract 21 21) (|top#10| state)) (concat ((_ extract 21 21) (|top#10| state)) ((_ extract 21 2) (|top#10| state)))))) ; $gt$measure/rms.v:7$25_Y
(define-fun |top#12| ((state |top_s|)) Bool (bvslt (concat ((_ extract 21 21) (|top#10| state)) (concat ((_ extract 21 21) (|top#10| state)) ((_ extract 21 2) (|top#10| state)))) #b0000001110111100010000)) ; $logic_and$measure/rms.v:7$27.b
(define-fun |top#13| ((state |top_s|)) (_ BitVec 1) (bvand (ite (|top#11| state) #b1 #b0) (ite (|top#12| state) #b1 #b0))) ; $0$formal$measure/rms.v:6$1_CHECK[0:0]$17
(define-fun |top_u 0| ((state |top_s|)) Bool (or (= ((_ extract 0 0) (|top#13| state)) #b1) (not true))) ; $assume$measure/rms.v:6$35
(define-fun |top#14| ((state |top_s|)) (_ BitVec 12) (bvadd (concat ((_ extract 9 9) (|top#0| state)) (concat ((_ extract 9 9) (|top#0| state)) (|top#0| state))) (concat ((_ extract 9 9) (|top#1| state)) (concat ((_ extract 9 9) (|top#1| state)) (|top#1| state))))) ; $add$measure/rms.v:5$13_Y
(define-fun |top#15| ((state |top_s|)) (_ BitVec 12) (bvadd (|top#14| state) (concat ((_ extract 9 9) (|top#2| state)) (concat ((_ extract 9 9) (|top#2| state)) (|top#2| state))))) ; $add$measure/rms.v:5$14_Y
(define-fun |top#16| ((state |top_s|)) (_ BitVec 12) (bvadd (|top#15| state) (concat ((_ extract 9 9) (|top#3| state)) (concat ((_ extract 9 9) (|top#3| state)) (|top#3| state))))) ; \sum
(define-fun |top#17| ((state |top_s|)) Bool (= (|top#16| state) #b000000000000)) ; $0$formal$measure/rms.v:7$2_CHECK[0:0]$19
(define-fun |top_u 1| ((state |top_s|)) Bool (or (|top#17| state) (not true))) ; $assume$measure/rms.v:7$36
(define-fun |top#18| ((state |top_s|)) Bool (distinct ((_ extract 9 9) (|top#0| state)) ((_ extract 9 9) (|top#1| state)))) ; $logic_and$measure/rms.v:9$31.a
(define-fun |top#19| ((state |top_s|)) Bool (distinct ((_ extract 9 9) (|top#1| state)) ((_ extract 9 9) (|top#2| state)))) ; $logic_and$measure/rms.v:9$31.b
(define-fun |top#20| ((state |top_s|)) (_ BitVec 1) (bvand (ite (|top#18| state) #b1 #b0) (ite (|top#19| state) #b1 #b0))) ; $logic_and$measure/rms.v:9$31_Y
(define-fun |top#21| ((state |top_s|)) Bool (distinct ((_ extract 9 9) (|top#2| state)) ((_ extract 9 9) (|top#3| state)))) ; $logic_and$measure/rms.v:9$33.b
(define-fun |top#22| ((state |top_s|)) (_ BitVec 1) (bvand (|top#20| state) (ite (|top#21| state) #b1 #b0))) ; $0$formal$measure/rms.v:8$3_CHECK[0:0]$21
(define-fun |top_u 2| ((state |top_s|)) Bool (or (= ((_ extract 0 0) (|top#22| state)) #b1) (not true))) ; $assume$measure/rms.v:8$37
(define-fun |top#23| ((state |top_s|)) Bool (bvslt #b0001100100 (|top#0| state))) ; $0$formal$measure/rms.v:9$4_CHECK[0:0]$23
(define-fun |top_u 3| ((state |top_s|)) Bool (or (|top#23| state) (not true))) ; $assume$measure/rms.v:9$38
(define-fun |top_a| ((state |top_s|)) Bool true)
(define-fun |top_u| ((state |top_s|)) Bool (and
  (|top_u 0| state)
  (|top_u 1| state)
  (|top_u 2| state)
  (|top_u 3| state)
))
(define-fun |top_i| ((state |top_s|)) Bool true)
(define-fun |top_h| ((state |top_s|)) Bool true)
(define-fun |top_t| ((state |top_s|) (next_state |top_s|)) Bool true) ; end of module top
(declare-fun s () |top_s|)
(assert (|top_u| s))
(check-sat)
