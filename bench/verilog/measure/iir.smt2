(set-logic QF_BV)
(define-sort |top_s| () (_ BitVec 97))
(define-fun |top_is| ((state |top_s|)) Bool (= ((_ extract 0 0) state) #b1))
(define-fun |top#0| ((state |top_s|)) (_ BitVec 16) ((_ extract 16 1) state)) ; \x0
(define-fun |top_n x0| ((state |top_s|)) (_ BitVec 16) (|top#0| state))
(define-fun |top#1| ((state |top_s|)) (_ BitVec 16) ((_ extract 32 17) state)) ; \x1
(define-fun |top_n x1| ((state |top_s|)) (_ BitVec 16) (|top#1| state))
(define-fun |top#2| ((state |top_s|)) (_ BitVec 16) ((_ extract 48 33) state)) ; \x2
(define-fun |top_n x2| ((state |top_s|)) (_ BitVec 16) (|top#2| state))
(define-fun |top#3| ((state |top_s|)) (_ BitVec 16) ((_ extract 64 49) state)) ; \x3
(define-fun |top_n x3| ((state |top_s|)) (_ BitVec 16) (|top#3| state))
(define-fun |top#4| ((state |top_s|)) (_ BitVec 16) ((_ extract 80 65) state)) ; \x4
(define-fun |top_n x4| ((state |top_s|)) (_ BitVec 16) (|top#4| state))
(define-fun |top#5| ((state |top_s|)) (_ BitVec 16) ((_ extract 96 81) state)) ; \x5
(define-fun |top_n x5| ((state |top_s|)) (_ BitVec 16) (|top#5| state))
(define-fun |top#6| ((state |top_s|)) Bool (bvslt #b1110000011000000 (|top#1| state))) ; $gt$measure/iir.v:11$42_Y
(define-fun |top#7| ((state |top_s|)) Bool (bvslt (|top#1| state) #b0001111101000000)) ; $logic_and$measure/iir.v:11$44.b
(define-fun |top#8| ((state |top_s|)) (_ BitVec 1) (bvand (ite (|top#6| state) #b1 #b0) (ite (|top#7| state) #b1 #b0))) ; $0$formal$measure/iir.v:10$2_CHECK[0:0]$27
(define-fun |top_u 0| ((state |top_s|)) Bool (or (= ((_ extract 0 0) (|top#8| state)) #b1) (not true))) ; $assume$measure/iir.v:10$55
(define-fun |top#9| ((state |top_s|)) Bool (bvslt #b1110000011000000 (|top#5| state))) ; $gt$measure/iir.v:12$45_Y
(define-fun |top#10| ((state |top_s|)) Bool (bvslt (|top#5| state) #b0001111101000000)) ; $logic_and$measure/iir.v:12$47.b
(define-fun |top#11| ((state |top_s|)) (_ BitVec 1) (bvand (ite (|top#9| state) #b1 #b0) (ite (|top#10| state) #b1 #b0))) ; $0$formal$measure/iir.v:11$3_CHECK[0:0]$29
(define-fun |top_u 1| ((state |top_s|)) Bool (or (= ((_ extract 0 0) (|top#11| state)) #b1) (not true))) ; $assume$measure/iir.v:11$56
(define-fun |top#12| ((state |top_s|)) (_ BitVec 16) (bvsub (|top#1| state) (concat ((_ extract 15 15) (|top#0| state)) (concat ((_ extract 15 15) (|top#0| state)) ((_ extract 15 2) (|top#0| state)))))) ; { $sshr$measure/iir.v:4$10_Y [15] $sshr$measure/iir.v:4$10_Y [12:0] $sub$measure/iir.v:4$9_Y [1:0] }
(define-fun |top#13| ((state |top_s|)) (_ BitVec 16) (bvadd (concat ((_ extract 15 15) (|top#0| state)) (concat ((_ extract 15 15) (|top#0| state)) ((_ extract 15 2) (|top#0| state)))) (concat ((_ extract 15 15) (|top#12| state)) (concat ((_ extract 15 15) (|top#12| state)) ((_ extract 15 2) (|top#12| state)))))) ; \y1
(define-fun |top#14| ((state |top_s|)) (_ BitVec 16) (bvsub (|top#2| state) (|top#13| state))) ; { $sshr$measure/iir.v:5$13_Y [15] $sshr$measure/iir.v:5$13_Y [12:0] $sub$measure/iir.v:5$12_Y [1:0] }
(define-fun |top#15| ((state |top_s|)) (_ BitVec 16) (bvadd (|top#13| state) (concat ((_ extract 15 15) (|top#14| state)) (concat ((_ extract 15 15) (|top#14| state)) ((_ extract 15 2) (|top#14| state)))))) ; \y2
(define-fun |top#16| ((state |top_s|)) Bool (bvslt (|top#15| state) #b1111110000011000)) ; $0$formal$measure/iir.v:12$4_CHECK[0:0]$31
(define-fun |top_u 2| ((state |top_s|)) Bool (or (|top#16| state) (not true))) ; $assume$measure/iir.v:12$57
(define-fun |top#17| ((state |top_s|)) Bool (bvslt #b1111010001001000 (|top#15| state))) ; $0$formal$measure/iir.v:13$5_CHECK[0:0]$33
(define-fun |top_u 3| ((state |top_s|)) Bool (or (|top#17| state) (not true))) ; $assume$measure/iir.v:13$58
(define-fun |top#18| ((state |top_s|)) (_ BitVec 16) (bvsub (|top#3| state) (|top#15| state))) ; { $sshr$measure/iir.v:6$16_Y [15] $sshr$measure/iir.v:6$16_Y [12:0] $sub$measure/iir.v:6$15_Y [1:0] }
(define-fun |top#19| ((state |top_s|)) (_ BitVec 16) (bvadd (|top#15| state) (concat ((_ extract 15 15) (|top#18| state)) (concat ((_ extract 15 15) (|top#18| state)) ((_ extract 15 2) (|top#18| state)))))) ; \y3
(define-fun |top#20| ((state |top_s|)) Bool (bvslt #b0000000111110100 (|top#19| state))) ; $gt$measure/iir.v:15$50_Y
(define-fun |top#21| ((state |top_s|)) Bool (bvslt (|top#19| state) #b0000001110000100)) ; $logic_and$measure/iir.v:15$52.b
(define-fun |top#22| ((state |top_s|)) (_ BitVec 1) (bvand (ite (|top#20| state) #b1 #b0) (ite (|top#21| state) #b1 #b0))) ; $0$formal$measure/iir.v:14$6_CHECK[0:0]$35
(define-fun |top_u 4| ((state |top_s|)) Bool (or (= ((_ extract 0 0) (|top#22| state)) #b1) (not true))) ; $assume$measure/iir.v:14$59
(define-fun |top#23| ((state |top_s|)) (_ BitVec 16) (bvsub (|top#4| state) (|top#19| state))) ; { $sshr$measure/iir.v:7$19_Y [15] $sshr$measure/iir.v:7$19_Y [12:0] $sub$measure/iir.v:7$18_Y [1:0] }
(define-fun |top#24| ((state |top_s|)) (_ BitVec 16) (bvadd (|top#19| state) (concat ((_ extract 15 15) (|top#23| state)) (concat ((_ extract 15 15) (|top#23| state)) ((_ extract 15 2) (|top#23| state)))))) ; \y4
(define-fun |top#25| ((state |top_s|)) (_ BitVec 16) (bvsub (|top#5| state) (|top#24| state))) ; { $sshr$measure/iir.v:8$22_Y [15] $sshr$measure/iir.v:8$22_Y [12:0] $sub$measure/iir.v:8$21_Y [1:0] }
(define-fun |top#26| ((state |top_s|)) (_ BitVec 16) (bvadd (|top#24| state) (concat ((_ extract 15 15) (|top#25| state)) (concat ((_ extract 15 15) (|top#25| state)) ((_ extract 15 2) (|top#25| state)))))) ; \y5
(define-fun |top#27| ((state |top_s|)) Bool (= (|top#26| state) #b0000001100001001)) ; $0$formal$measure/iir.v:15$7_CHECK[0:0]$37
(define-fun |top_u 5| ((state |top_s|)) Bool (or (|top#27| state) (not true))) ; $assume$measure/iir.v:15$60
(define-fun |top#28| ((state |top_s|)) Bool (bvslt #b0000000000000000 (|top#0| state))) ; $gt$measure/iir.v:10$39_Y
(define-fun |top#29| ((state |top_s|)) Bool (bvslt (|top#0| state) #b0001111101000000)) ; $logic_and$measure/iir.v:10$41.b
(define-fun |top#30| ((state |top_s|)) (_ BitVec 1) (bvand (ite (|top#28| state) #b1 #b0) (ite (|top#29| state) #b1 #b0))) ; $0$formal$measure/iir.v:9$1_CHECK[0:0]$25
(define-fun |top_u 6| ((state |top_s|)) Bool (or (= ((_ extract 0 0) (|top#30| state)) #b1) (not true))) ; $assume$measure/iir.v:9$54
(define-fun |top_a| ((state |top_s|)) Bool true)
(define-fun |top_u| ((state |top_s|)) Bool (and
  (|top_u 0| state)
  (|top_u 1| state)
  (|top_u 2| state)
  (|top_u 3| state)
  (|top_u 4| state)
  (|top_u 5| state)
  (|top_u 6| state)
))
(define-fun |top_i| ((state |top_s|)) Bool true)
(define-fun |top_h| ((state |top_s|)) Bool true)
(define-fun |top_t| ((state |top_s|) (next_state |top_s|)) Bool true) ; end of module top
(declare-fun s () |top_s|)
(assert (|top_u| s))
(check-sat)
