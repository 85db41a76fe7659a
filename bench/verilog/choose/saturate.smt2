(set-logic QF_BV)
(define-sort |top_s| () (_ BitVec 53))
(define-fun |top_is| ((state |top_s|)) Bool (= ((_ extract 0 0) state) #b1))
(define-fun |top#0| ((state |top_s|)) (_ BitVec 16) ((_ extract 16 1) state)) ; \c
(define-fun |top_n c| ((state |top_s|)) (_ BitVec 16) (|top#0| state))
(define-fun |top#1| ((state |top_s|)) (_ BitVec 4) ((_ extract 20 17) state)) ; \gain
(define-fun |top_n gain| ((state |top_s|)) (_ BitVec 4) (|top#1| state))
(define-fun |top#2| ((state |top_s|)) (_ BitVec 16) ((_ extract 36 21) state)) ; \l
(define-fun |top_n l| ((state |top_s|)) (_ BitVec 16) (|top#2| state))
(define-fun |top#3| ((state |top_s|)) (_ BitVec 16) ((_ extract 52 37) state)) ; \r
(define-fun |top_n r| ((state |top_s|)) (_ BitVec 16) (|top#3| state))
(define-fun |top#4| ((state |top_s|)) Bool (= ((_ extract 3 0) (|top#2| state)) ((_ extract 3 0) (|top#3| state)))) ; $0$formal$choose/saturate.v:10$6_CHECK[0:0]$26
(define-fun |top_u 0| ((state |top_s|)) Bool (or (|top#4| state) (not true))) ; $assume$choose/saturate.v:10$39
(define-fun |top#5| ((state |top_s|)) (_ BitVec 24) (bvmul (concat ((_ extract 15 15) (|top#3| state)) (concat ((_ extract 15 15) (|top#3| state)) (concat ((_ extract 15 15) (|top#3| state)) (concat ((_ extract 15 15) (|top#3| state)) (concat ((_ extract 15 15) (|top#3| state)) (concat ((_ extract 15 15) (|top#3| state)) (concat ((_ extract 15 15) (|top#3| state)) (concat ((_ extract 15 15) (|top#3| state)) (|top#3| state))))))))) (concat #b00000000000000000000 (|top#1| state)))) ; $mul$choose/saturate.v:3$7_Y
(define-fun |top#6| ((state |top_s|)) (_ BitVec 24) (bvadd (concat ((_ extract 15 15) (|top#2| state)) (concat ((_ extract 15 15) (|top#2| state)) (concat ((_ extract 15 15) (|top#2| state)) (concat ((_ extract 15 15) (|top#2| state)) (concat ((_ extract 15 15) (|top#2| state)) (concat ((_ extract 15 15) (|top#2| state)) (concat ((_ extract 15 15) (|top#2| state)) (concat ((_ extract 15 15) (|top#2| state)) (|top#2| state))))))))) (concat ((_ extract 23 23) (|top#5| state)) (concat ((_ extract 23 23) (|top#5| state)) ((_ extract 23 2) (|top#5| state)))))) ; $add$choose/saturate.v:3$9_Y
(define-fun |top#7| ((state |top_s|)) (_ BitVec 24) (bvsub (|top#6| state) (concat ((_ extract 15 15) (|top#0| state)) (concat ((_ extract 15 15) (|top#0| state)) (concat ((_ extract 15 15) (|top#0| state)) (concat ((_ extract 15 15) (|top#0| state)) (concat ((_ extract 15 15) (|top#0| state)) (concat ((_ extract 15 15) (|top#0| state)) (concat ((_ extract 15 15) (|top#0| state)) (concat ((_ extract 15 15) (|top#0| state)) (concat ((_ extract 15 15) (|top#0| state)) ((_ extract 15 1) (|top#0| state))))))))))))) ; \mixed
(define-fun |top#8| ((state |top_s|)) Bool (bvslt #b000000000111111111111111 (|top#7| state))) ; $gt$choose/saturate.v:4$12_Y
(define-fun |top#9| ((state |top_s|)) Bool (bvslt (|top#7| state) #b111111111000000000000000)) ; $logic_or$choose/saturate.v:4$14.b
(define-fun |top#10| ((state |top_s|)) (_ BitVec 1) (bvor (ite (|top#8| state) #b1 #b0) (ite (|top#9| state) #b1 #b0))) ; \clips
(define-fun |top#11| ((state |top_s|)) (_ BitVec 1) (bvnot (|top#10| state))) ; $0$formal$choose/saturate.v:5$1_CHECK[0:0]$16
(define-fun |top_u 1| ((state |top_s|)) Bool (or (= ((_ extract 0 0) (|top#11| state)) #b1) (not true))) ; $assume$choose/saturate.v:5$34
(define-fun |top#12| ((state |top_s|)) Bool (bvslt #b000000000111111110111100 (|top#7| state))) ; $0$formal$choose/saturate.v:6$2_CHECK[0:0]$18
(define-fun |top_u 2| ((state |top_s|)) Bool (or (|top#12| state) (not true))) ; $assume$choose/saturate.v:6$35
(define-fun |top#13| ((state |top_s|)) Bool (bvult #b1000 (|top#1| state))) ; $0$formal$choose/saturate.v:7$3_CHECK[0:0]$20
(define-fun |top_u 3| ((state |top_s|)) Bool (or (|top#13| state) (not true))) ; $assume$choose/saturate.v:7$36
(define-fun |top#14| ((state |top_s|)) Bool (bvslt (|top#3| state) #b0001111101000000)) ; $0$formal$choose/saturate.v:8$4_CHECK[0:0]$22
(define-fun |top_u 4| ((state |top_s|)) Bool (or (|top#14| state) (not true))) ; $assume$choose/saturate.v:8$37
(define-fun |top#15| ((state |top_s|)) Bool (bvslt #b0010111011100000 (|top#0| state))) ; $0$formal$choose/saturate.v:9$5_CHECK[0:0]$24
(define-fun |top_u 5| ((state |top_s|)) Bool (or (|top#15| state) (not true))) ; $assume$choose/saturate.v:9$38
(define-fun |top_a| ((state |top_s|)) Bool true)
(define-fun |top_u| ((state |top_s|)) Bool (and
  (|top_u 0| state)
  (|top_u 1| state)
  (|top_u 2| state)
  (|top_u 3| state)
  (|top_u 4| state)
  (|top_u 5| state)
))
(define-fun |top_i| ((state |top_s|)) Bool true)
(define-fun |top_h| ((state |top_s|)) Bool true)
(define-fun |top_t| ((state |top_s|) (next_state |top_s|)) Bool true) ; end of module top
(declare-fun s () |top_s|)
(assert (|top_u| s))
(check-sat)
