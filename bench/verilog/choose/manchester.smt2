(set-logic QF_BV)
(define-sort |top_s| () (_ BitVec 33))
(define-fun |top_is| ((state |top_s|)) Bool (= ((_ extract 0 0) state) #b1))
(define-fun |top#0| ((state |top_s|)) (_ BitVec 32) ((_ extract 32 1) state)) ; \line
(define-fun |top_n line| ((state |top_s|)) (_ BitVec 32) (|top#0| state))
(define-fun |top#1| ((state |top_s|)) Bool (= (concat ((_ extract 14 14) (|top#0| state)) (concat ((_ extract 12 12) (|top#0| state)) (concat ((_ extract 10 10) (|top#0| state)) ((_ extract 8 8) (|top#0| state))))) #b1001)) ; $0$formal$choose/manchester.v:10$19_CHECK[0:0]$57
(define-fun |top_u 0| ((state |top_s|)) Bool (or (|top#1| state) (not true))) ; $assume$choose/manchester.v:10$101
(define-fun |top#2| ((state |top_s|)) (_ BitVec 2) (bvxor (concat ((_ extract 2 2) (|top#0| state)) ((_ extract 0 0) (|top#0| state))) (concat ((_ extract 6 6) (|top#0| state)) ((_ extract 4 4) (|top#0| state))))) ; $reduce_xor$choose/manchester.v:12$82.genblk1.folded
(define-fun |top#3| ((state |top_s|)) (_ BitVec 1) (bvxor ((_ extract 0 0) (|top#2| state)) ((_ extract 1 1) (|top#2| state)))) ; $0$formal$choose/manchester.v:11$20_CHECK[0:0]$59
(define-fun |top_u 1| ((state |top_s|)) Bool (or (= ((_ extract 0 0) (|top#3| state)) #b1) (not true))) ; $assume$choose/manchester.v:11$102
(define-fun |top#4| ((state |top_s|)) Bool (= ((_ extract 1 0) (|top#0| state)) #b10)) ; $0$formal$choose/manchester.v:12$21_CHECK[0:0]$61
(define-fun |top_u 2| ((state |top_s|)) Bool (or (|top#4| state) (not true))) ; $assume$choose/manchester.v:12$103
(define-fun |top#5| ((state |top_s|)) Bool (distinct ((_ extract 0 0) (|top#0| state)) ((_ extract 1 1) (|top#0| state)))) ; $0$formal$choose/manchester.v:6$2_CHECK[0:0]$23
(define-fun |top_u 3| ((state |top_s|)) Bool (or (|top#5| state) (not true))) ; $assume$choose/manchester.v:6$84
(define-fun |top#6| ((state |top_s|)) Bool (distinct ((_ extract 2 2) (|top#0| state)) ((_ extract 3 3) (|top#0| state)))) ; $0$formal$choose/manchester.v:6$3_CHECK[0:0]$25
(define-fun |top_u 4| ((state |top_s|)) Bool (or (|top#6| state) (not true))) ; $assume$choose/manchester.v:6$85
(define-fun |top#7| ((state |top_s|)) Bool (distinct ((_ extract 4 4) (|top#0| state)) ((_ extract 5 5) (|top#0| state)))) ; $0$formal$choose/manchester.v:6$4_CHECK[0:0]$27
(define-fun |top_u 5| ((state |top_s|)) Bool (or (|top#7| state) (not true))) ; $assume$choose/manchester.v:6$86
(define-fun |top#8| ((state |top_s|)) Bool (distinct ((_ extract 6 6) (|top#0| state)) ((_ extract 7 7) (|top#0| state)))) ; $0$formal$choose/manchester.v:6$5_CHECK[0:0]$29
(define-fun |top_u 6| ((state |top_s|)) Bool (or (|top#8| state) (not true))) ; $assume$choose/manchester.v:6$87
(define-fun |top#9| ((state |top_s|)) Bool (distinct ((_ extract 8 8) (|top#0| state)) ((_ extract 9 9) (|top#0| state)))) ; $0$formal$choose/manchester.v:6$6_CHECK[0:0]$31
(define-fun |top_u 7| ((state |top_s|)) Bool (or (|top#9| state) (not true))) ; $assume$choose/manchester.v:6$88
(define-fun |top#10| ((state |top_s|)) Bool (distinct ((_ extract 10 10) (|top#0| state)) ((_ extract 11 11) (|top#0| state)))) ; $0$formal$choose/manchester.v:6$7_CHECK[0:0]$33
(define-fun |top_u 8| ((state |top_s|)) Bool (or (|top#10| state) (not true))) ; $assume$choose/manchester.v:6$89
(define-fun |top#11| ((state |top_s|)) Bool (distinct ((_ extract 12 12) (|top#0| state)) ((_ extract 13 13) (|top#0| state)))) ; $0$formal$choose/manchester.v:6$8_CHECK[0:0]$35
(define-fun |top_u 9| ((state |top_s|)) Bool (or (|top#11| state) (not true))) ; $assume$choose/manchester.v:6$90
(define-fun |top#12| ((state |top_s|)) Bool (distinct ((_ extract 14 14) (|top#0| state)) ((_ extract 15 15) (|top#0| state)))) ; $0$formal$choose/manchester.v:6$9_CHECK[0:0]$37
(define-fun |top_u 10| ((state |top_s|)) Bool (or (|top#12| state) (not true))) ; $assume$choose/manchester.v:6$91
(define-fun |top#13| ((state |top_s|)) Bool (distinct ((_ extract 16 16) (|top#0| state)) ((_ extract 17 17) (|top#0| state)))) ; $0$formal$choose/manchester.v:6$10_CHECK[0:0]$39
(define-fun |top_u 11| ((state |top_s|)) Bool (or (|top#13| state) (not true))) ; $assume$choose/manchester.v:6$92
(define-fun |top#14| ((state |top_s|)) Bool (distinct ((_ extract 18 18) (|top#0| state)) ((_ extract 19 19) (|top#0| state)))) ; $0$formal$choose/manchester.v:6$11_CHECK[0:0]$41
(define-fun |top_u 12| ((state |top_s|)) Bool (or (|top#14| state) (not true))) ; $assume$choose/manchester.v:6$93
(define-fun |top#15| ((state |top_s|)) Bool (distinct ((_ extract 20 20) (|top#0| state)) ((_ extract 21 21) (|top#0| state)))) ; $0$formal$choose/manchester.v:6$12_CHECK[0:0]$43
(define-fun |top_u 13| ((state |top_s|)) Bool (or (|top#15| state) (not true))) ; $assume$choose/manchester.v:6$94
(define-fun |top#16| ((state |top_s|)) Bool (distinct ((_ extract 22 22) (|top#0| state)) ((_ extract 23 23) (|top#0| state)))) ; $0$formal$choose/manchester.v:6$13_CHECK[0:0]$45
(define-fun |top_u 14| ((state |top_s|)) Bool (or (|top#16| state) (not true))) ; $assume$choose/manchester.v:6$95
(define-fun |top#17| ((state |top_s|)) Bool (distinct ((_ extract 24 24) (|top#0| state)) ((_ extract 25 25) (|top#0| state)))) ; $0$formal$choose/manchester.v:6$14_CHECK[0:0]$47
(define-fun |top_u 15| ((state |top_s|)) Bool (or (|top#17| state) (not true))) ; $assume$choose/manchester.v:6$96
(define-fun |top#18| ((state |top_s|)) Bool (distinct ((_ extract 26 26) (|top#0| state)) ((_ extract 27 27) (|top#0| state)))) ; $0$formal$choose/manchester.v:6$15_CHECK[0:0]$49
(define-fun |top_u 16| ((state |top_s|)) Bool (or (|top#18| state) (not true))) ; $assume$choose/manchester.v:6$97
(define-fun |top#19| ((state |top_s|)) Bool (distinct ((_ extract 28 28) (|top#0| state)) ((_ extract 29 29) (|top#0| state)))) ; $0$formal$choose/manchester.v:6$16_CHECK[0:0]$51
(define-fun |top_u 17| ((state |top_s|)) Bool (or (|top#19| state) (not true))) ; $assume$choose/manchester.v:6$98
(define-fun |top#20| ((state |top_s|)) Bool (distinct ((_ extract 30 30) (|top#0| state)) ((_ extract 31 31) (|top#0| state)))) ; $0$formal$choose/manchester.v:6$17_CHECK[0:0]$53
(define-fun |top_u 18| ((state |top_s|)) Bool (or (|top#20| state) (not true))) ; $assume$choose/manchester.v:6$99
(define-fun |top#21| ((state |top_s|)) (_ BitVec 8) (bvnot (concat ((_ extract 14 14) (|top#0| state)) (concat ((_ extract 12 12) (|top#0| state)) (concat ((_ extract 10 10) (|top#0| state)) (concat ((_ extract 8 8) (|top#0| state)) (concat ((_ extract 6 6) (|top#0| state)) (concat ((_ extract 4 4) (|top#0| state)) (concat ((_ extract 2 2) (|top#0| state)) ((_ extract 0 0) (|top#0| state))))))))))) ; $not$choose/manchester.v:10$79_Y
(define-fun |top#22| ((state |top_s|)) Bool (= (concat ((_ extract 30 30) (|top#0| state)) (concat ((_ extract 28 28) (|top#0| state)) (concat ((_ extract 26 26) (|top#0| state)) (concat ((_ extract 24 24) (|top#0| state)) (concat ((_ extract 22 22) (|top#0| state)) (concat ((_ extract 20 20) (|top#0| state)) (concat ((_ extract 18 18) (|top#0| state)) ((_ extract 16 16) (|top#0| state))))))))) (|top#21| state))) ; $0$formal$choose/manchester.v:9$18_CHECK[0:0]$55
(define-fun |top_u 19| ((state |top_s|)) Bool (or (|top#22| state) (not true))) ; $assume$choose/manchester.v:9$100
(define-fun |top_a| ((state |top_s|)) Bool true)
(define-fun |top_u| ((state |top_s|)) Bool (and
  (|top_u 0| state)
  (|top_u 1| state)
  (|top_u 2| state)
  (|top_u 3| state)
  (|top_u 4| state)
  (|top_u 5| state)
  (|top_u 6| state)
  (|top_u 7| state)
  (|top_u 8| state)
  (|top_u 9| state)
  (|top_u 10| state)
  (|top_u 11| state)
  (|top_u 12| state)
  (|top_u 13| state)
  (|top_u 14| state)
  (|top_u 15| state)
  (|top_u 16| state)
  (|top_u 17| state)
  (|top_u 18| state)
  (|top_u 19| state)
))
(define-fun |top_i| ((state |top_s|)) Bool true)
(define-fun |top_h| ((state |top_s|)) Bool true)
(define-fun |top_t| ((state |top_s|) (next_state |top_s|)) Bool true) ; end of module top
(declare-fun s () |top_s|)
(assert (|top_u| s))
(check-sat)
