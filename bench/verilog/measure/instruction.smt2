(set-logic QF_BV)
(define-sort |top_s| () (_ BitVec 129))
(define-fun |top_is| ((state |top_s|)) Bool (= ((_ extract 0 0) state) #b1))
(define-fun |top#0| ((state |top_s|)) (_ BitVec 32) ((_ extract 32 1) state)) ; \base
(define-fun |top_n base| ((state |top_s|)) (_ BitVec 32) (|top#0| state))
(define-fun |top#1| ((state |top_s|)) (_ BitVec 32) ((_ extract 64 33) state)) ; \branch
(define-fun |top_n branch| ((state |top_s|)) (_ BitVec 32) (|top#1| state))
(define-fun |top#2| ((state |top_s|)) (_ BitVec 32) ((_ extract 96 65) state)) ; \load
(define-fun |top_n load| ((state |top_s|)) (_ BitVec 32) (|top#2| state))
(define-fun |top#3| ((state |top_s|)) (_ BitVec 32) ((_ extract 128 97) state)) ; \pc
(define-fun |top_n pc| ((state |top_s|)) (_ BitVec 32) (|top#3| state))
(define-fun |top#4| ((state |top_s|)) (_ BitVec 31) (bvadd ((_ extract 31 1) (|top#3| state)) (concat ((_ extract 31 31) (|top#1| state)) (concat ((_ extract 31 31) (|top#1| state)) (concat ((_ extract 31 31) (|top#1| state)) (concat ((_ extract 31 31) (|top#1| state)) (concat ((_ extract 31 31) (|top#1| state)) (concat ((_ extract 31 31) (|top#1| state)) (concat ((_ extract 31 31) (|top#1| state)) (concat ((_ extract 31 31) (|top#1| state)) (concat ((_ extract 31 31) (|top#1| state)) (concat ((_ extract 31 31) (|top#1| state)) (concat ((_ extract 31 31) (|top#1| state)) (concat ((_ extract 31 31) (|top#1| state)) (concat ((_ extract 31 31) (|top#1| state)) (concat ((_ extract 31 31) (|top#1| state)) (concat ((_ extract 31 31) (|top#1| state)) (concat ((_ extract 31 31) (|top#1| state)) (concat ((_ extract 31 31) (|top#1| state)) (concat ((_ extract 31 31) (|top#1| state)) (concat ((_ extract 31 31) (|top#1| state)) (concat ((_ extract 31 31) (|top#1| state)) (concat ((_ extract 7 7) (|top#1| state)) (concat ((_ extract 30 25) (|top#1| state)) ((_ extract 11 8) (|top#1| state)))))))))))))))))))))))))) ; \target [31:1]
(define-fun |top#5| ((state |top_s|)) Bool (= (concat (|top#4| state) ((_ extract 0 0) (|top#3| state))) #b10000000000000000000111100110100)) ; $0$formal$measure/instruction.v:10$5_CHECK[0:0]$22
(define-fun |top_u 0| ((state |top_s|)) Bool (or (|top#5| state) (not true))) ; $assume$measure/instruction.v:10$53
(define-fun |top#6| ((state |top_s|)) Bool (= ((_ extract 1 0) (|top#3| state)) #b00)) ; $eq$measure/instruction.v:12$39_Y
(define-fun |top#7| ((state |top_s|)) Bool (bvult #b10000000000000000001000000000000 (|top#3| state))) ; $gt$measure/instruction.v:12$40_Y
(define-fun |top#8| ((state |top_s|)) (_ BitVec 1) (bvand (ite (|top#6| state) #b1 #b0) (ite (|top#7| state) #b1 #b0))) ; $logic_and$measure/instruction.v:12$41_Y
(define-fun |top#9| ((state |top_s|)) Bool (bvult (|top#3| state) #b10000000000000000001100000000000)) ; $logic_and$measure/instruction.v:12$43.b
(define-fun |top#10| ((state |top_s|)) (_ BitVec 1) (bvand (|top#8| state) (ite (|top#9| state) #b1 #b0))) ; $0$formal$measure/instruction.v:11$6_CHECK[0:0]$24
(define-fun |top_u 1| ((state |top_s|)) Bool (or (= ((_ extract 0 0) (|top#10| state)) #b1) (not true))) ; $assume$measure/instruction.v:11$54
(define-fun |top#11| ((state |top_s|)) (_ BitVec 32) (bvadd (|top#0| state) (concat ((_ extract 31 31) (|top#2| state)) (concat ((_ extract 31 31) (|top#2| state)) (concat ((_ extract 31 31) (|top#2| state)) (concat ((_ extract 31 31) (|top#2| state)) (concat ((_ extract 31 31) (|top#2| state)) (concat ((_ extract 31 31) (|top#2| state)) (concat ((_ extract 31 31) (|top#2| state)) (concat ((_ extract 31 31) (|top#2| state)) (concat ((_ extract 31 31) (|top#2| state)) (concat ((_ extract 31 31) (|top#2| state)) (concat ((_ extract 31 31) (|top#2| state)) (concat ((_ extract 31 31) (|top#2| state)) (concat ((_ extract 31 31) (|top#2| state)) (concat ((_ extract 31 31) (|top#2| state)) (concat ((_ extract 31 31) (|top#2| state)) (concat ((_ extract 31 31) (|top#2| state)) (concat ((_ extract 31 31) (|top#2| state)) (concat ((_ extract 31 31) (|top#2| state)) (concat ((_ extract 31 31) (|top#2| state)) (concat ((_ extract 31 31) (|top#2| state)) ((_ extract 31 20) (|top#2| state)))))))))))))))))))))))) ; \where
(define-fun |top#12| ((state |top_s|)) Bool (= ((_ extract 1 0) (|top#11| state)) #b00)) ; $0$formal$measure/instruction.v:12$7_CHECK[0:0]$26
(define-fun |top_u 2| ((state |top_s|)) Bool (or (|top#12| state) (not true))) ; $assume$measure/instruction.v:12$55
(define-fun |top#13| ((state |top_s|)) (_ BitVec 26) (bvadd ((_ extract 30 5) (|top#4| state)) #b00000000000000000000000001)) ; $add$measure/instruction.v:14$45_Y [31:6]
(define-fun |top#14| ((state |top_s|)) Bool (= (|top#11| state) (concat (|top#13| state) (concat ((_ extract 4 0) (|top#4| state)) ((_ extract 0 0) (|top#3| state)))))) ; $0$formal$measure/instruction.v:13$8_CHECK[0:0]$28
(define-fun |top_u 3| ((state |top_s|)) Bool (or (|top#14| state) (not true))) ; $assume$measure/instruction.v:13$56
(define-fun |top#15| ((state |top_s|)) Bool (= ((_ extract 11 7) (|top#2| state)) ((_ extract 19 15) (|top#1| state)))) ; $0$formal$measure/instruction.v:14$9_CHECK[0:0]$30
(define-fun |top_u 4| ((state |top_s|)) Bool (or (|top#15| state) (not true))) ; $assume$measure/instruction.v:14$57
(define-fun |top#16| ((state |top_s|)) Bool (bvult (|top#11| state) (|top#0| state))) ; $0$formal$measure/instruction.v:15$10_CHECK[0:0]$32
(define-fun |top_u 5| ((state |top_s|)) Bool (or (|top#16| state) (not true))) ; $assume$measure/instruction.v:15$58
(define-fun |top#17| ((state |top_s|)) Bool (= ((_ extract 6 0) (|top#1| state)) #b1100011)) ; $0$formal$measure/instruction.v:6$1_CHECK[0:0]$14
(define-fun |top_u 6| ((state |top_s|)) Bool (or (|top#17| state) (not true))) ; $assume$measure/instruction.v:6$49
(define-fun |top#18| ((state |top_s|)) Bool (= ((_ extract 14 12) (|top#1| state)) #b101)) ; $0$formal$measure/instruction.v:7$2_CHECK[0:0]$16
(define-fun |top_u 7| ((state |top_s|)) Bool (or (|top#18| state) (not true))) ; $assume$measure/instruction.v:7$50
(define-fun |top#19| ((state |top_s|)) Bool (= ((_ extract 6 0) (|top#2| state)) #b0000011)) ; $0$formal$measure/instruction.v:8$3_CHECK[0:0]$18
(define-fun |top_u 8| ((state |top_s|)) Bool (or (|top#19| state) (not true))) ; $assume$measure/instruction.v:8$51
(define-fun |top#20| ((state |top_s|)) Bool (= ((_ extract 14 12) (|top#2| state)) #b010)) ; $0$formal$measure/instruction.v:9$4_CHECK[0:0]$20
(define-fun |top_u 9| ((state |top_s|)) Bool (or (|top#20| state) (not true))) ; $assume$measure/instruction.v:9$52
(define-fun |top_a| ((state |top_s|)) Bool true)
(define-fun |top_u| ((state |top_s|)) Bool (and
  (|top_u 0| state)
  (|top_u 1| state)
  (|top_u 2| state)
  (|top_u 3| state)
  (|top_u 4| state)
  (|top_u 5| state)
  (|top_u 6| state)
  (|top_u 7| state)
  (|top_u 8| state)
  (|top_u 9| state)
))
(define-fun |top_i| ((state |top_s|)) Bool true)
(define-fun |top_h| ((state |top_s|)) Bool true)
(define-fun |top_t| ((state |top_s|) (next_state |top_s|)) Bool true) ; end of module top
(declare-fun s () |top_s|)
(assert (|top_u| s))
(check-sat)
