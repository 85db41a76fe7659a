(set-logic QF_BV)
(define-sort |top_s| () (_ BitVec 65))
(define-fun |top_is| ((state |top_s|)) Bool (= ((_ extract 0 0) state) #b1))
(define-fun |top#0| ((state |top_s|)) (_ BitVec 8) ((_ extract 8 1) state)) ; \x0
(define-fun |top_n x0| ((state |top_s|)) (_ BitVec 8) (|top#0| state))
(define-fun |top#1| ((state |top_s|)) (_ BitVec 8) ((_ extract 16 9) state)) ; \x1
(define-fun |top_n x1| ((state |top_s|)) (_ BitVec 8) (|top#1| state))
(define-fun |top#2| ((state |top_s|)) (_ BitVec 8) ((_ extract 24 17) state)) ; \x2
(define-fun |top_n x2| ((state |top_s|)) (_ BitVec 8) (|top#2| state))
(define-fun |top#3| ((state |top_s|)) (_ BitVec 8) ((_ extract 32 25) state)) ; \x3
(define-fun |top_n x3| ((state |top_s|)) (_ BitVec 8) (|top#3| state))
(define-fun |top#4| ((state |top_s|)) (_ BitVec 8) ((_ extract 40 33) state)) ; \x4
(define-fun |top_n x4| ((state |top_s|)) (_ BitVec 8) (|top#4| state))
(define-fun |top#5| ((state |top_s|)) (_ BitVec 8) ((_ extract 48 41) state)) ; \x5
(define-fun |top_n x5| ((state |top_s|)) (_ BitVec 8) (|top#5| state))
(define-fun |top#6| ((state |top_s|)) (_ BitVec 8) ((_ extract 56 49) state)) ; \x6
(define-fun |top_n x6| ((state |top_s|)) (_ BitVec 8) (|top#6| state))
(define-fun |top#7| ((state |top_s|)) (_ BitVec 8) ((_ extract 64 57) state)) ; \x7
(define-fun |top_n x7| ((state |top_s|)) (_ BitVec 8) (|top#7| state))
(define-fun |top#8| ((state |top_s|)) (_ BitVec 16) (bvadd (concat ((_ extract 7 7) (|top#0| state)) (concat ((_ extract 7 7) (|top#0| state)) (concat ((_ extract 7 7) (|top#0| state)) (concat ((_ extract 7 7) (|top#0| state)) (concat ((_ extract 7 7) (|top#0| state)) (concat ((_ extract 7 7) (|top#0| state)) (concat ((_ extract 7 7) (|top#0| state)) (concat ((_ extract 7 7) (|top#0| state)) (|top#0| state))))))))) (concat ((_ extract 7 7) (|top#1| state)) (concat ((_ extract 7 7) (|top#1| state)) (concat ((_ extract 7 7) (|top#1| state)) (concat ((_ extract 7 7) (|top#1| state)) (concat ((_ extract 7 7) (|top#1| state)) (concat ((_ extract 7 7) (|top#1| state)) (concat ((_ extract 7 7) (|top#1| state)) (concat ((_ extract 7 7) (|top#1| state)) (|top#1| state))))))))))) ; \i1
(define-fun |top#9| ((state |top_s|)) (_ BitVec 16) (bvadd (|top#8| state) (concat ((_ extract 7 7) (|top#2| state)) (concat ((_ extract 7 7) (|top#2| state)) (concat ((_ extract 7 7) (|top#2| state)) (concat ((_ extract 7 7) (|top#2| state)) (concat ((_ extract 7 7) (|top#2| state)) (concat ((_ extract 7 7) (|top#2| state)) (concat ((_ extract 7 7) (|top#2| state)) (concat ((_ extract 7 7) (|top#2| state)) (|top#2| state))))))))))) ; \i2
(define-fun |top#10| ((state |top_s|)) (_ BitVec 16) (bvadd (|top#9| state) (concat ((_ extract 7 7) (|top#3| state)) (concat ((_ extract 7 7) (|top#3| state)) (concat ((_ extract 7 7) (|top#3| state)) (concat ((_ extract 7 7) (|top#3| state)) (concat ((_ extract 7 7) (|top#3| state)) (concat ((_ extract 7 7) (|top#3| state)) (concat ((_ extract 7 7) (|top#3| state)) (concat ((_ extract 7 7) (|top#3| state)) (|top#3| state))))))))))) ; \i3
(define-fun |top#11| ((state |top_s|)) (_ BitVec 16) (bvadd (|top#10| state) (concat ((_ extract 7 7) (|top#4| state)) (concat ((_ extract 7 7) (|top#4| state)) (concat ((_ extract 7 7) (|top#4| state)) (concat ((_ extract 7 7) (|top#4| state)) (concat ((_ extract 7 7) (|top#4| state)) (concat ((_ extract 7 7) (|top#4| state)) (concat ((_ extract 7 7) (|top#4| state)) (concat ((_ extract 7 7) (|top#4| state)) (|top#4| state))))))))))) ; \i4
(define-fun |top#12| ((state |top_s|)) (_ BitVec 16) (bvadd (|top#11| state) (concat ((_ extract 7 7) (|top#5| state)) (concat ((_ extract 7 7) (|top#5| state)) (concat ((_ extract 7 7) (|top#5| state)) (concat ((_ extract 7 7) (|top#5| state)) (concat ((_ extract 7 7) (|top#5| state)) (concat ((_ extract 7 7) (|top#5| state)) (concat ((_ extract 7 7) (|top#5| state)) (concat ((_ extract 7 7) (|top#5| state)) (|top#5| state))))))))))) ; \i5
(define-fun |top#13| ((state |top_s|)) (_ BitVec 16) (bvadd (|top#12| state) (concat ((_ extract 7 7) (|top#6| state)) (concat ((_ extract 7 7) (|top#6| state)) (concat ((_ extract 7 7) (|top#6| state)) (concat ((_ extract 7 7) (|top#6| state)) (concat ((_ extract 7 7) (|top#6| state)) (concat ((_ extract 7 7) (|top#6| state)) (concat ((_ extract 7 7) (|top#6| state)) (concat ((_ extract 7 7) (|top#6| state)) (|top#6| state))))))))))) ; \i6
(define-fun |top#14| ((state |top_s|)) (_ BitVec 16) (bvadd (|top#13| state) (concat ((_ extract 7 7) (|top#7| state)) (concat ((_ extract 7 7) (|top#7| state)) (concat ((_ extract 7 7) (|top#7| state)) (concat ((_ extract 7 7) (|top#7| state)) (concat ((_ extract 7 7) (|top#7| state)) (concat ((_ extract 7 7) (|top#7| state)) (concat ((_ extract 7 7) (|top#7| state)) (concat ((_ extract 7 7) (|top#7| state)) (|top#7| state))))))))))) ; \i7
(define-fun |top#15| ((state |top_s|)) Bool (= ((_ extract 15 3) (|top#14| state)) #b1111111110111)) ; $0$formal$measure/cic.v:10$2_CHECK[0:0]$25
(define-fun |top_u 0| ((state |top_s|)) Bool (or (|top#15| state) (not true))) ; $assume$measure/cic.v:10$39
(define-fun |top#16| ((state |top_s|)) Bool (bvslt #b00110010 (|top#0| state))) ; $0$formal$measure/cic.v:11$3_CHECK[0:0]$27
(define-fun |top_u 1| ((state |top_s|)) Bool (or (|top#16| state) (not true))) ; $assume$measure/cic.v:11$40
(define-fun |top#17| ((state |top_s|)) Bool (bvslt (|top#3| state) (|top#4| state))) ; $0$formal$measure/cic.v:12$4_CHECK[0:0]$29
(define-fun |top_u 2| ((state |top_s|)) Bool (or (|top#17| state) (not true))) ; $assume$measure/cic.v:12$41
(define-fun |top#18| ((state |top_s|)) Bool (bvslt #b00000000 (|top#7| state))) ; $0$formal$measure/cic.v:13$5_CHECK[0:0]$31
(define-fun |top_u 3| ((state |top_s|)) Bool (or (|top#18| state) (not true))) ; $assume$measure/cic.v:13$42
(define-fun |top#19| ((state |top_s|)) (_ BitVec 16) (bvadd (concat ((_ extract 7 7) (|top#0| state)) (concat ((_ extract 7 7) (|top#0| state)) (concat ((_ extract 7 7) (|top#0| state)) (concat ((_ extract 7 7) (|top#0| state)) (concat ((_ extract 7 7) (|top#0| state)) (concat ((_ extract 7 7) (|top#0| state)) (concat ((_ extract 7 7) (|top#0| state)) (concat ((_ extract 7 7) (|top#0| state)) (|top#0| state))))))))) (|top#8| state))) ; $add$measure/cic.v:5$13_Y
(define-fun |top#20| ((state |top_s|)) (_ BitVec 16) (bvadd (|top#19| state) (|top#9| state))) ; $add$measure/cic.v:5$14_Y
(define-fun |top#21| ((state |top_s|)) (_ BitVec 16) (bvadd (|top#20| state) (|top#10| state))) ; \j3
(define-fun |top#22| ((state |top_s|)) (_ BitVec 16) (bvadd (|top#21| state) (|top#11| state))) ; $add$measure/cic.v:6$16_Y
(define-fun |top#23| ((state |top_s|)) (_ BitVec 16) (bvadd (|top#22| state) (|top#12| state))) ; $add$measure/cic.v:6$17_Y
(define-fun |top#24| ((state |top_s|)) (_ BitVec 16) (bvadd (|top#23| state) (|top#13| state))) ; $add$measure/cic.v:6$18_Y
(define-fun |top#25| ((state |top_s|)) (_ BitVec 16) (bvadd (|top#24| state) (|top#14| state))) ; \j7
(define-fun |top#26| ((state |top_s|)) (_ BitVec 16) (bvsub (|top#25| state) (|top#21| state))) ; \comb
(define-fun |top#27| ((state |top_s|)) Bool (= (|top#26| state) #b1111111010111111)) ; $0$formal$measure/cic.v:9$1_CHECK[0:0]$23
(define-fun |top_u 4| ((state |top_s|)) Bool (or (|top#27| state) (not true))) ; $assume$measure/cic.v:9$38
(define-fun |top_a| ((state |top_s|)) Bool true)
(define-fun |top_u| ((state |top_s|)) Bool (and
  (|top_u 0| state)
  (|top_u 1| state)
  (|top_u 2| state)
  (|top_u 3| state)
  (|top_u 4| state)
))
(define-fun |top_i| ((state |top_s|)) Bool true)
(define-fun |top_h| ((state |top_s|)) Bool true)
(define-fun |top_t| ((state |top_s|) (next_state |top_s|)) Bool true) ; end of module top
(declare-fun s () |top_s|)
(assert (|top_u| s))
(check-sat)
