(set-logic QF_BV)
(define-sort |top_s| () (_ BitVec 33))
(define-fun |top_is| ((state |top_s|)) Bool (= ((_ extract 0 0) state) #b1))
(define-fun |top#0| ((state |top_s|)) (_ BitVec 8) ((_ extract 8 1) state)) ; \a
(define-fun |top_n a| ((state |top_s|)) (_ BitVec 8) (|top#0| state))
(define-fun |top#1| ((state |top_s|)) (_ BitVec 8) ((_ extract 16 9) state)) ; \b
(define-fun |top_n b| ((state |top_s|)) (_ BitVec 8) (|top#1| state))
(define-fun |top#2| ((state |top_s|)) (_ BitVec 8) ((_ extract 24 17) state)) ; \c
(define-fun |top_n c| ((state |top_s|)) (_ BitVec 8) (|top#2| state))
(define-fun |top#3| ((state |top_s|)) (_ BitVec 8) ((_ extract 32 25) state)) ; \d
(define-fun |top_n d| ((state |top_s|)) (_ BitVec 8) (|top#3| state))
(define-fun |top#4| ((state |top_s|)) (_ BitVec 20) (bvmul #b00000000000000010001 (concat ((_ extract 7 7) (|top#0| state)) (concat ((_ extract 7 7) (|top#0| state)) (concat ((_ extract 7 7) (|top#0| state)) (concat ((_ extract 7 7) (|top#0| state)) (concat ((_ extract 7 7) (|top#0| state)) (concat ((_ extract 7 7) (|top#0| state)) (concat ((_ extract 7 7) (|top#0| state)) (concat ((_ extract 7 7) (|top#0| state)) (concat ((_ extract 7 7) (|top#0| state)) (concat ((_ extract 7 7) (|top#0| state)) (concat ((_ extract 7 7) (|top#0| state)) (concat ((_ extract 7 7) (|top#0| state)) (|top#0| state))))))))))))))) ; $mul$choose/dot_product.v:3$5_Y
(define-fun |top#5| ((state |top_s|)) (_ BitVec 20) (bvmul #b00000000000001011101 (concat ((_ extract 7 7) (|top#1| state)) (concat ((_ extract 7 7) (|top#1| state)) (concat ((_ extract 7 7) (|top#1| state)) (concat ((_ extract 7 7) (|top#1| state)) (concat ((_ extract 7 7) (|top#1| state)) (concat ((_ extract 7 7) (|top#1| state)) (concat ((_ extract 7 7) (|top#1| state)) (concat ((_ extract 7 7) (|top#1| state)) (concat ((_ extract 7 7) (|top#1| state)) (concat ((_ extract 7 7) (|top#1| state)) (concat ((_ extract 7 7) (|top#1| state)) (concat ((_ extract 7 7) (|top#1| state)) (|top#1| state))))))))))))))) ; $mul$choose/dot_product.v:3$6_Y
(define-fun |top#6| ((state |top_s|)) (_ BitVec 20) (bvadd (|top#4| state) (|top#5| state))) ; $add$choose/dot_product.v:3$7_Y
(define-fun |top#7| ((state |top_s|)) (_ BitVec 20) (bvmul #b00000000000000110111 (concat ((_ extract 7 7) (|top#2| state)) (concat ((_ extract 7 7) (|top#2| state)) (concat ((_ extract 7 7) (|top#2| state)) (concat ((_ extract 7 7) (|top#2| state)) (concat ((_ extract 7 7) (|top#2| state)) (concat ((_ extract 7 7) (|top#2| state)) (concat ((_ extract 7 7) (|top#2| state)) (concat ((_ extract 7 7) (|top#2| state)) (concat ((_ extract 7 7) (|top#2| state)) (concat ((_ extract 7 7) (|top#2| state)) (concat ((_ extract 7 7) (|top#2| state)) (concat ((_ extract 7 7) (|top#2| state)) (|top#2| state))))))))))))))) ; $mul$choose/dot_product.v:3$8_Y
(define-fun |top#8| ((state |top_s|)) (_ BitVec 20) (bvsub (|top#6| state) (|top#7| state))) ; { $sub$choose/dot_product.v:3$9_Y [19:3] \one [2:0] }
(define-fun |top#9| ((state |top_s|)) (_ BitVec 17) (bvadd ((_ extract 19 3) (|top#8| state)) (concat ((_ extract 7 7) (|top#3| state)) (concat ((_ extract 7 7) (|top#3| state)) (concat ((_ extract 7 7) (|top#3| state)) (concat ((_ extract 7 7) (|top#3| state)) (concat ((_ extract 7 7) (|top#3| state)) (concat ((_ extract 7 7) (|top#3| state)) (concat ((_ extract 7 7) (|top#3| state)) (concat ((_ extract 7 7) (|top#3| state)) (concat ((_ extract 7 7) (|top#3| state)) (|top#3| state)))))))))))) ; \one [19:3]
(define-fun |top#10| ((state |top_s|)) Bool (= ((_ extract 16 2) (|top#9| state)) #b000000001100100)) ; $0$formal$choose/dot_product.v:5$1_CHECK[0:0]$20
(define-fun |top_u 0| ((state |top_s|)) Bool (or (|top#10| state) (not true))) ; $assume$choose/dot_product.v:5$35
(define-fun |top#11| ((state |top_s|)) (_ BitVec 20) (bvmul #b11111111111111100001 (concat ((_ extract 7 7) (|top#0| state)) (concat ((_ extract 7 7) (|top#0| state)) (concat ((_ extract 7 7) (|top#0| state)) (concat ((_ extract 7 7) (|top#0| state)) (concat ((_ extract 7 7) (|top#0| state)) (concat ((_ extract 7 7) (|top#0| state)) (concat ((_ extract 7 7) (|top#0| state)) (concat ((_ extract 7 7) (|top#0| state)) (concat ((_ extract 7 7) (|top#0| state)) (concat ((_ extract 7 7) (|top#0| state)) (concat ((_ extract 7 7) (|top#0| state)) (concat ((_ extract 7 7) (|top#0| state)) (|top#0| state))))))))))))))) ; { $mul$choose/dot_product.v:4$12_Y [19:2] $add$choose/dot_product.v:4$14_Y [1:0] }
(define-fun |top#12| ((state |top_s|)) (_ BitVec 18) (bvmul #b000000000000000011 (concat ((_ extract 7 7) (|top#1| state)) (concat ((_ extract 7 7) (|top#1| state)) (concat ((_ extract 7 7) (|top#1| state)) (concat ((_ extract 7 7) (|top#1| state)) (concat ((_ extract 7 7) (|top#1| state)) (concat ((_ extract 7 7) (|top#1| state)) (concat ((_ extract 7 7) (|top#1| state)) (concat ((_ extract 7 7) (|top#1| state)) (concat ((_ extract 7 7) (|top#1| state)) (concat ((_ extract 7 7) (|top#1| state)) (|top#1| state))))))))))))) ; $mul$choose/dot_product.v:4$13_Y [19:2]
(define-fun |top#13| ((state |top_s|)) (_ BitVec 18) (bvadd ((_ extract 19 2) (|top#11| state)) (|top#12| state))) ; $add$choose/dot_product.v:4$14_Y [19:2]
(define-fun |top#14| ((state |top_s|)) (_ BitVec 20) (bvmul #b00000000000001001101 (concat ((_ extract 7 7) (|top#2| state)) (concat ((_ extract 7 7) (|top#2| state)) (concat ((_ extract 7 7) (|top#2| state)) (concat ((_ extract 7 7) (|top#2| state)) (concat ((_ extract 7 7) (|top#2| state)) (concat ((_ extract 7 7) (|top#2| state)) (concat ((_ extract 7 7) (|top#2| state)) (concat ((_ extract 7 7) (|top#2| state)) (concat ((_ extract 7 7) (|top#2| state)) (concat ((_ extract 7 7) (|top#2| state)) (concat ((_ extract 7 7) (|top#2| state)) (concat ((_ extract 7 7) (|top#2| state)) (|top#2| state))))))))))))))) ; $mul$choose/dot_product.v:4$15_Y
(define-fun |top#15| ((state |top_s|)) (_ BitVec 20) (bvadd (concat (|top#13| state) ((_ extract 1 0) (|top#11| state))) (|top#14| state))) ; { $add$choose/dot_product.v:4$16_Y [19:6] \two [5:0] }
(define-fun |top#16| ((state |top_s|)) (_ BitVec 14) (bvsub ((_ extract 19 6) (|top#15| state)) (concat ((_ extract 7 7) (|top#3| state)) (concat ((_ extract 7 7) (|top#3| state)) (concat ((_ extract 7 7) (|top#3| state)) (concat ((_ extract 7 7) (|top#3| state)) (concat ((_ extract 7 7) (|top#3| state)) (concat ((_ extract 7 7) (|top#3| state)) (|top#3| state))))))))) ; \two [19:6]
(define-fun |top#17| ((state |top_s|)) Bool (= (concat (|top#16| state) ((_ extract 5 5) (|top#15| state))) #b111111111001110)) ; $0$formal$choose/dot_product.v:6$2_CHECK[0:0]$22
(define-fun |top_u 1| ((state |top_s|)) Bool (or (|top#17| state) (not true))) ; $assume$choose/dot_product.v:6$36
(define-fun |top#18| ((state |top_s|)) (_ BitVec 20) (bvmul (concat ((_ extract 7 7) (|top#0| state)) (concat ((_ extract 7 7) (|top#0| state)) (concat ((_ extract 7 7) (|top#0| state)) (concat ((_ extract 7 7) (|top#0| state)) (concat ((_ extract 7 7) (|top#0| state)) (concat ((_ extract 7 7) (|top#0| state)) (concat ((_ extract 7 7) (|top#0| state)) (concat ((_ extract 7 7) (|top#0| state)) (concat ((_ extract 7 7) (|top#0| state)) (concat ((_ extract 7 7) (|top#0| state)) (concat ((_ extract 7 7) (|top#0| state)) (concat ((_ extract 7 7) (|top#0| state)) (|top#0| state))))))))))))) (concat ((_ extract 7 7) (|top#1| state)) (concat ((_ extract 7 7) (|top#1| state)) (concat ((_ extract 7 7) (|top#1| state)) (concat ((_ extract 7 7) (|top#1| state)) (concat ((_ extract 7 7) (|top#1| state)) (concat ((_ extract 7 7) (|top#1| state)) (concat ((_ extract 7 7) (|top#1| state)) (concat ((_ extract 7 7) (|top#1| state)) (concat ((_ extract 7 7) (|top#1| state)) (concat ((_ extract 7 7) (|top#1| state)) (concat ((_ extract 7 7) (|top#1| state)) (concat ((_ extract 7 7) (|top#1| state)) (|top#1| state))))))))))))))) ; $mul$choose/dot_product.v:8$32_Y
(define-fun |top#19| ((state |top_s|)) Bool (bvslt #b00000000000111110100 (|top#18| state))) ; $0$formal$choose/dot_product.v:7$3_CHECK[0:0]$24
(define-fun |top_u 2| ((state |top_s|)) Bool (or (|top#19| state) (not true))) ; $assume$choose/dot_product.v:7$37
(define-fun |top#20| ((state |top_s|)) Bool (bvslt #b10011100 (|top#3| state))) ; $0$formal$choose/dot_product.v:8$4_CHECK[0:0]$26
(define-fun |top_u 3| ((state |top_s|)) Bool (or (|top#20| state) (not true))) ; $assume$choose/dot_product.v:8$38
(define-fun |top_a| ((state |top_s|)) Bool true)
(define-fun |top_u| ((state |top_s|)) Bool (and
  (|top_u 0| state)
  (|top_u 1| state)
  (|top_u 2| state)
  (|top_u 3| state)
))
(define-fun |top_i| ((state |top_s|)) Bool true)
(define-fun |top_h| ((state |top_s|)) Bool true)
(define-fun |top_t| ((state |top_s|) (next_state |top_s|)) Bool true) ; end of module top
(declare-fun s () |top_s|)
(assert (|top_u| s))
(check-sat)
