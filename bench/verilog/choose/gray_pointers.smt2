(set-logic QF_BV)
(define-sort |top_s| () (_ BitVec 21))
(define-fun |top_is| ((state |top_s|)) Bool (= ((_ extract 0 0) state) #b1))
(define-fun |top#0| ((state |top_s|)) (_ BitVec 4) ((_ extract 4 1) state)) ; \late
(define-fun |top_n late| ((state |top_s|)) (_ BitVec 4) (|top#0| state))
(define-fun |top#1| ((state |top_s|)) (_ BitVec 8) ((_ extract 12 5) state)) ; \read
(define-fun |top_n read| ((state |top_s|)) (_ BitVec 8) (|top#1| state))
(define-fun |top#2| ((state |top_s|)) (_ BitVec 8) ((_ extract 20 13) state)) ; \write
(define-fun |top_n write| ((state |top_s|)) (_ BitVec 8) (|top#2| state))
(define-fun |top#3| ((state |top_s|)) (_ BitVec 8) (bvsub (|top#2| state) (concat #b0000 (|top#0| state)))) ; \seen
(define-fun |top#4| ((state |top_s|)) (_ BitVec 8) (bvsub (|top#3| state) (|top#1| state))) ; \level
(define-fun |top#5| ((state |top_s|)) Bool (bvult #b10000000 (|top#4| state))) ; $le$choose/gray_pointers.v:11$31.less
(define-fun |top#6| ((state |top_s|)) (_ BitVec 1) (bvnot (ite (|top#5| state) #b1 #b0))) ; $0$formal$choose/gray_pointers.v:10$2_CHECK[0:0]$19
(define-fun |top_u 0| ((state |top_s|)) Bool (or (= ((_ extract 0 0) (|top#6| state)) #b1) (not true))) ; $assume$choose/gray_pointers.v:10$38
(define-fun |top#7| ((state |top_s|)) (_ BitVec 7) (bvxor ((_ extract 6 0) (|top#3| state)) ((_ extract 7 1) (|top#3| state)))) ; \gray_write [6:0]
(define-fun |top#8| ((state |top_s|)) (_ BitVec 7) (bvxor ((_ extract 6 0) (|top#1| state)) ((_ extract 7 1) (|top#1| state)))) ; \gray_read [6:0]
(define-fun |top#9| ((state |top_s|)) (_ BitVec 2) (bvnot (concat ((_ extract 7 7) (|top#1| state)) ((_ extract 6 6) (|top#8| state))))) ; $not$choose/gray_pointers.v:6$12_Y
(define-fun |top#10| ((state |top_s|)) Bool (= (concat ((_ extract 7 7) (|top#3| state)) (|top#7| state)) (concat (|top#9| state) ((_ extract 5 0) (|top#8| state))))) ; \full
(define-fun |top#11| ((state |top_s|)) Bool (= (concat ((_ extract 7 7) (|top#3| state)) (|top#7| state)) (concat ((_ extract 7 7) (|top#1| state)) (|top#8| state)))) ; \empty
(define-fun |top#12| ((state |top_s|)) (_ BitVec 1) (bvor (ite (|top#10| state) #b1 #b0) (ite (|top#11| state) #b1 #b0))) ; $0$formal$choose/gray_pointers.v:11$3_CHECK[0:0]$21
(define-fun |top_u 1| ((state |top_s|)) Bool (or (= ((_ extract 0 0) (|top#12| state)) #b1) (not true))) ; $assume$choose/gray_pointers.v:11$39
(define-fun |top#13| ((state |top_s|)) Bool (bvult #b0101 (|top#0| state))) ; $0$formal$choose/gray_pointers.v:12$4_CHECK[0:0]$23
(define-fun |top_u 2| ((state |top_s|)) Bool (or (|top#13| state) (not true))) ; $assume$choose/gray_pointers.v:12$40
(define-fun |top#14| ((state |top_s|)) (_ BitVec 1) (bvnot ((_ extract 7 7) (|top#1| state)))) ; $logic_and$choose/gray_pointers.v:14$35.b
(define-fun |top#15| ((state |top_s|)) (_ BitVec 1) (bvand ((_ extract 7 7) (|top#2| state)) (|top#14| state))) ; $0$formal$choose/gray_pointers.v:13$5_CHECK[0:0]$25
(define-fun |top_u 3| ((state |top_s|)) Bool (or (= ((_ extract 0 0) (|top#15| state)) #b1) (not true))) ; $assume$choose/gray_pointers.v:13$41
(define-fun |top#16| ((state |top_s|)) Bool (= ((_ extract 5 2) (|top#7| state)) #b0010)) ; $0$formal$choose/gray_pointers.v:14$6_CHECK[0:0]$27
(define-fun |top_u 4| ((state |top_s|)) Bool (or (|top#16| state) (not true))) ; $assume$choose/gray_pointers.v:14$42
(define-fun |top#17| ((state |top_s|)) (_ BitVec 8) (bvsub (|top#2| state) (|top#1| state))) ; $sub$choose/gray_pointers.v:10$29_Y
(define-fun |top#18| ((state |top_s|)) Bool (bvult #b10000000 (|top#17| state))) ; $le$choose/gray_pointers.v:10$30.less
(define-fun |top#19| ((state |top_s|)) (_ BitVec 1) (bvnot (ite (|top#18| state) #b1 #b0))) ; $0$formal$choose/gray_pointers.v:9$1_CHECK[0:0]$17
(define-fun |top_u 5| ((state |top_s|)) Bool (or (= ((_ extract 0 0) (|top#19| state)) #b1) (not true))) ; $assume$choose/gray_pointers.v:9$37
(define-fun |top_a| ((state |top_s|)) Bool true)
(define-fun |top_u| ((state |top_s|)) Bool (and
  (|top_u 0| state)
  (|top_u 1| state)
  (|top_u 2| state)
  (|top_u 3| state)
  (|top_u 4| state)
  (|top_u 5| state)
))
(define-fun |top_i| ((state |top_s|)) Bool true)
(define-fun |top_h| ((state |top_s|)) Bool true)
(define-fun |top_t| ((state |top_s|) (next_state |top_s|)) Bool true) ; end of module top
(declare-fun s () |top_s|)
(assert (|top_u| s))
(check-sat)
