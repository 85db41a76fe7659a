(set-logic QF_BV)
(define-sort |top_s| () (_ BitVec 25))
(define-fun |top_is| ((state |top_s|)) Bool (= ((_ extract 0 0) state) #b1))
(define-fun |top#0| ((state |top_s|)) (_ BitVec 7) ((_ extract 7 1) state)) ; \address
(define-fun |top_n address| ((state |top_s|)) (_ BitVec 7) (|top#0| state))
(define-fun |top#1| ((state |top_s|)) (_ BitVec 5) ((_ extract 12 8) state)) ; \crc
(define-fun |top_n crc| ((state |top_s|)) (_ BitVec 5) (|top#1| state))
(define-fun |top#2| ((state |top_s|)) (_ BitVec 4) ((_ extract 16 13) state)) ; \endpoint
(define-fun |top_n endpoint| ((state |top_s|)) (_ BitVec 4) (|top#2| state))
(define-fun |top#3| ((state |top_s|)) (_ BitVec 8) ((_ extract 24 17) state)) ; \pid
(define-fun |top_n pid| ((state |top_s|)) (_ BitVec 8) (|top#3| state))
(define-fun |top#4| ((state |top_s|)) Bool (= ((_ extract 1 0) (|top#3| state)) #b01)) ; $0$formal$choose/crc5.v:10$3_CHECK[0:0]$11
(define-fun |top_u 0| ((state |top_s|)) Bool (or (|top#4| state) (not true))) ; $assume$choose/crc5.v:10$63
(define-fun |top#5| ((state |top_s|)) Bool (distinct (|top#0| state) #b0000000)) ; $0$formal$choose/crc5.v:11$4_CHECK[0:0]$13
(define-fun |top_u 1| ((state |top_s|)) Bool (or (|top#5| state) (not true))) ; $assume$choose/crc5.v:11$64
(define-fun |top#6| ((state |top_s|)) (_ BitVec 1) (bvnot ((_ extract 1 1) (|top#0| state)))) ; $auto$opt_expr.cc:205:group_cell_inputs$110 [2]
(define-fun |top#7| ((state |top_s|)) (_ BitVec 1) (bvxor ((_ extract 0 0) (|top#0| state)) ((_ extract 3 3) (|top#0| state)))) ; $auto$opt_expr.cc:205:group_cell_inputs$116 [2]
(define-fun |top#8| ((state |top_s|)) (_ BitVec 1) (bvxor (|top#6| state) (|top#7| state))) ; $auto$opt_expr.cc:205:group_cell_inputs$111
(define-fun |top#9| ((state |top_s|)) (_ BitVec 1) (bvxor (|top#8| state) ((_ extract 6 6) (|top#0| state)))) ; $auto$opt_expr.cc:205:group_cell_inputs$125 [2]
(define-fun |top#10| ((state |top_s|)) (_ BitVec 1) (bvnot ((_ extract 0 0) (|top#0| state)))) ; $auto$opt_expr.cc:205:group_cell_inputs$100 [0]
(define-fun |top#11| ((state |top_s|)) (_ BitVec 1) (bvnot ((_ extract 2 2) (|top#0| state)))) ; $auto$opt_expr.cc:205:group_cell_inputs$113 [2]
(define-fun |top#12| ((state |top_s|)) (_ BitVec 1) (bvxor (|top#10| state) (|top#11| state))) ; $auto$opt_expr.cc:205:group_cell_inputs$108
(define-fun |top#13| ((state |top_s|)) (_ BitVec 1) (bvxor (|top#12| state) ((_ extract 5 5) (|top#0| state)))) ; $auto$opt_expr.cc:205:group_cell_inputs$122 [2]
(define-fun |top#14| ((state |top_s|)) (_ BitVec 1) (bvxor (|top#7| state) (|top#13| state))) ; $auto$opt_expr.cc:205:group_cell_inputs$117
(define-fun |top#15| ((state |top_s|)) (_ BitVec 1) (bvxor (|top#14| state) ((_ extract 1 1) (|top#2| state)))) ; $auto$opt_expr.cc:205:group_cell_inputs$131 [2]
(define-fun |top#16| ((state |top_s|)) (_ BitVec 1) (bvxor (|top#9| state) (|top#15| state))) ; \c [4]
(define-fun |top#17| ((state |top_s|)) (_ BitVec 1) (bvxor ((_ extract 1 1) (|top#0| state)) ((_ extract 4 4) (|top#0| state)))) ; $auto$opt_expr.cc:205:group_cell_inputs$119 [2]
(define-fun |top#18| ((state |top_s|)) (_ BitVec 1) (bvxor (|top#11| state) (|top#17| state))) ; $auto$opt_expr.cc:205:group_cell_inputs$114
(define-fun |top#19| ((state |top_s|)) (_ BitVec 1) (bvxor (|top#18| state) ((_ extract 0 0) (|top#2| state)))) ; $auto$opt_expr.cc:205:group_cell_inputs$128 [2]
(define-fun |top#20| ((state |top_s|)) (_ BitVec 1) (bvxor (|top#17| state) (|top#9| state))) ; $auto$opt_expr.cc:205:group_cell_inputs$120
(define-fun |top#21| ((state |top_s|)) (_ BitVec 1) (bvxor (|top#20| state) ((_ extract 2 2) (|top#2| state)))) ; \c [1]
(define-fun |top#22| ((state |top_s|)) (_ BitVec 1) (bvxor (|top#19| state) (|top#21| state))) ; \c [3]
(define-fun |top#23| ((state |top_s|)) (_ BitVec 1) (bvxor (|top#13| state) (|top#19| state))) ; $auto$opt_expr.cc:205:group_cell_inputs$123
(define-fun |top#24| ((state |top_s|)) (_ BitVec 1) (bvxor (|top#23| state) ((_ extract 3 3) (|top#2| state)))) ; \c [0]
(define-fun |top#25| ((state |top_s|)) (_ BitVec 1) (bvxor (|top#15| state) (|top#24| state))) ; \c [2]
(define-fun |top#26| ((state |top_s|)) (_ BitVec 5) (bvnot (concat (|top#24| state) (concat (|top#21| state) (concat (|top#25| state) (concat (|top#22| state) (|top#16| state))))))) ; $not$choose/crc5.v:13$58_Y
(define-fun |top#27| ((state |top_s|)) Bool (= (|top#1| state) (|top#26| state))) ; $0$formal$choose/crc5.v:12$5_CHECK[0:0]$15
(define-fun |top_u 2| ((state |top_s|)) Bool (or (|top#27| state) (not true))) ; $assume$choose/crc5.v:12$65
(define-fun |top#28| ((state |top_s|)) Bool (= (|top#1| state) #b10101)) ; $0$formal$choose/crc5.v:13$6_CHECK[0:0]$17
(define-fun |top_u 3| ((state |top_s|)) Bool (or (|top#28| state) (not true))) ; $assume$choose/crc5.v:13$66
(define-fun |top#29| ((state |top_s|)) Bool (bvult #b1001 (|top#2| state))) ; $0$formal$choose/crc5.v:14$7_CHECK[0:0]$19
(define-fun |top_u 4| ((state |top_s|)) Bool (or (|top#29| state) (not true))) ; $assume$choose/crc5.v:14$67
(define-fun |top#30| ((state |top_s|)) (_ BitVec 4) (bvnot ((_ extract 3 0) (|top#3| state)))) ; $not$choose/crc5.v:10$54_Y
(define-fun |top#31| ((state |top_s|)) Bool (= ((_ extract 7 4) (|top#3| state)) (|top#30| state))) ; $0$formal$choose/crc5.v:9$2_CHECK[0:0]$9
(define-fun |top_u 5| ((state |top_s|)) Bool (or (|top#31| state) (not true))) ; $assume$choose/crc5.v:9$62
(define-fun |top_a| ((state |top_s|)) Bool true)
(define-fun |top_u| ((state |top_s|)) Bool (and
  (|top_u 0| state)
  (|top_u 1| state)
  (|top_u 2| state)
  (|top_u 3| state)
  (|top_u 4| state)
  (|top_u 5| state)
))
(define-fun |top_i| ((state |top_s|)) Bool true)
(define-fun |top_h| ((state |top_s|)) Bool true)
(define-fun |top_t| ((state |top_s|) (next_state |top_s|)) Bool true) ; end of module top
(declare-fun s () |top_s|)
(assert (|top_u| s))
(check-sat)
