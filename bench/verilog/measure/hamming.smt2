(set-logic QF_BV)
(define-sort |top_s| () (_ BitVec 17))
(define-fun |top_is| ((state |top_s|)) Bool (= ((_ extract 0 0) state) #b1))
(define-fun |top#0| ((state |top_s|)) (_ BitVec 16) ((_ extract 16 1) state)) ; \word
(define-fun |top_n word| ((state |top_s|)) (_ BitVec 16) (|top#0| state))
(define-fun |top#1| ((state |top_s|)) (_ BitVec 8) (bvxor ((_ extract 7 0) (|top#0| state)) ((_ extract 15 8) (|top#0| state)))) ; $reduce_xor$measure/hamming.v:11$29.genblk1.folded
(define-fun |top#2| ((state |top_s|)) (_ BitVec 4) (bvxor ((_ extract 3 0) (|top#1| state)) ((_ extract 7 4) (|top#1| state)))) ; $techmap$reduce_xor$measure/hamming.v:11$29.$reduce_xor$../../examples/btor2/list.v:101$136.genblk1.folded
(define-fun |top#3| ((state |top_s|)) (_ BitVec 2) (bvxor ((_ extract 1 0) (|top#2| state)) ((_ extract 3 2) (|top#2| state)))) ; $techmap$techmap$reduce_xor$measure/hamming.v:11$29.$reduce_xor$../../examples/btor2/list.v:101$136.$reduce_xor$../../examples/btor2/list.v:101$138.genblk1.folded
(define-fun |top#4| ((state |top_s|)) (_ BitVec 1) (bvxor ((_ extract 0 0) (|top#3| state)) ((_ extract 1 1) (|top#3| state)))) ; $0$formal$measure/hamming.v:10$2_CHECK[0:0]$6
(define-fun |top_u 0| ((state |top_s|)) Bool (or (= ((_ extract 0 0) (|top#4| state)) #b1) (not true))) ; $assume$measure/hamming.v:10$33
(define-fun |top#5| ((state |top_s|)) (_ BitVec 1) (bvnot ((_ extract 1 1) (|top#0| state)))) ; $auto$opt_expr.cc:205:group_cell_inputs$84 [0]
(define-fun |top#6| ((state |top_s|)) (_ BitVec 1) (bvnot ((_ extract 2 2) (|top#0| state)))) ; $auto$opt_expr.cc:205:group_cell_inputs$84 [1]
(define-fun |top#7| ((state |top_s|)) (_ BitVec 2) (ite (= ((_ extract 3 3) (|top#0| state)) #b1) (concat (|top#6| state) (|top#5| state)) ((_ extract 2 1) (|top#0| state)))) ; $3\syndrome[3:0] [1:0]
(define-fun |top#8| ((state |top_s|)) (_ BitVec 1) (bvnot ((_ extract 0 0) (|top#7| state)))) ; $auto$opt_expr.cc:205:group_cell_inputs$94 [2]
(define-fun |top#9| ((state |top_s|)) (_ BitVec 1) (bvnot ((_ extract 4 4) (|top#0| state)))) ; $auto$opt_expr.cc:205:group_cell_inputs$94 [1]
(define-fun |top#10| ((state |top_s|)) (_ BitVec 2) (ite (= ((_ extract 5 5) (|top#0| state)) #b1) (concat (|top#9| state) (|top#8| state)) (concat ((_ extract 4 4) (|top#0| state)) ((_ extract 0 0) (|top#7| state))))) ; { $5\syndrome[3:0] [2] $5\syndrome[3:0] [0] }
(define-fun |top#11| ((state |top_s|)) (_ BitVec 1) (bvnot ((_ extract 1 1) (|top#7| state)))) ; $auto$opt_expr.cc:205:group_cell_inputs$101 [1]
(define-fun |top#12| ((state |top_s|)) (_ BitVec 1) (bvnot ((_ extract 1 1) (|top#10| state)))) ; $auto$opt_expr.cc:205:group_cell_inputs$101 [2]
(define-fun |top#13| ((state |top_s|)) (_ BitVec 2) (ite (= ((_ extract 6 6) (|top#0| state)) #b1) (concat (|top#12| state) (|top#11| state)) (concat ((_ extract 1 1) (|top#10| state)) ((_ extract 1 1) (|top#7| state))))) ; $6\syndrome[3:0] [2:1]
(define-fun |top#14| ((state |top_s|)) (_ BitVec 1) (bvnot ((_ extract 0 0) (|top#10| state)))) ; $auto$opt_expr.cc:205:group_cell_inputs$108 [0]
(define-fun |top#15| ((state |top_s|)) (_ BitVec 1) (bvnot ((_ extract 0 0) (|top#13| state)))) ; $auto$opt_expr.cc:205:group_cell_inputs$108 [1]
(define-fun |top#16| ((state |top_s|)) (_ BitVec 1) (bvnot ((_ extract 1 1) (|top#13| state)))) ; $auto$opt_expr.cc:205:group_cell_inputs$108 [2]
(define-fun |top#17| ((state |top_s|)) (_ BitVec 3) (ite (= ((_ extract 7 7) (|top#0| state)) #b1) (concat (|top#16| state) (concat (|top#15| state) (|top#14| state))) (concat (|top#13| state) ((_ extract 0 0) (|top#10| state))))) ; $7\syndrome[3:0] [2:0]
(define-fun |top#18| ((state |top_s|)) (_ BitVec 4) (bvxor (concat ((_ extract 8 8) (|top#0| state)) (|top#17| state)) #b1001)) ; $xor$measure/hamming.v:9$20_Y
(define-fun |top#19| ((state |top_s|)) (_ BitVec 4) (ite (= ((_ extract 9 9) (|top#0| state)) #b1) (|top#18| state) (concat ((_ extract 8 8) (|top#0| state)) (|top#17| state)))) ; $9\syndrome[3:0]
(define-fun |top#20| ((state |top_s|)) (_ BitVec 4) (bvxor (|top#19| state) #b1010)) ; $xor$measure/hamming.v:9$21_Y
(define-fun |top#21| ((state |top_s|)) (_ BitVec 4) (ite (= ((_ extract 10 10) (|top#0| state)) #b1) (|top#20| state) (|top#19| state))) ; $10\syndrome[3:0]
(define-fun |top#22| ((state |top_s|)) (_ BitVec 4) (bvxor (|top#21| state) #b1011)) ; $xor$measure/hamming.v:9$22_Y
(define-fun |top#23| ((state |top_s|)) (_ BitVec 4) (ite (= ((_ extract 11 11) (|top#0| state)) #b1) (|top#22| state) (|top#21| state))) ; $11\syndrome[3:0]
(define-fun |top#24| ((state |top_s|)) (_ BitVec 4) (bvxor (|top#23| state) #b1100)) ; $xor$measure/hamming.v:9$23_Y
(define-fun |top#25| ((state |top_s|)) (_ BitVec 4) (ite (= ((_ extract 12 12) (|top#0| state)) #b1) (|top#24| state) (|top#23| state))) ; $12\syndrome[3:0]
(define-fun |top#26| ((state |top_s|)) (_ BitVec 4) (bvxor (|top#25| state) #b1101)) ; $xor$measure/hamming.v:9$24_Y
(define-fun |top#27| ((state |top_s|)) (_ BitVec 4) (ite (= ((_ extract 13 13) (|top#0| state)) #b1) (|top#26| state) (|top#25| state))) ; $13\syndrome[3:0]
(define-fun |top#28| ((state |top_s|)) (_ BitVec 4) (bvxor (|top#27| state) #b1110)) ; $xor$measure/hamming.v:9$25_Y
(define-fun |top#29| ((state |top_s|)) (_ BitVec 4) (ite (= ((_ extract 14 14) (|top#0| state)) #b1) (|top#28| state) (|top#27| state))) ; $14\syndrome[3:0]
(define-fun |top#30| ((state |top_s|)) (_ BitVec 4) (bvxor (|top#29| state) #b1111)) ; $xor$measure/hamming.v:9$26_Y
(define-fun |top#31| ((state |top_s|)) (_ BitVec 4) (ite (= ((_ extract 15 15) (|top#0| state)) #b1) (|top#30| state) (|top#29| state))) ; \syndrome
(define-fun |top#32| ((state |top_s|)) Bool (bvult #b1000 (|top#31| state))) ; $0$formal$measure/hamming.v:11$3_CHECK[0:0]$8
(define-fun |top_u 1| ((state |top_s|)) Bool (or (|top#32| state) (not true))) ; $assume$measure/hamming.v:11$34
(define-fun |top#33| ((state |top_s|)) (_ BitVec 16) (bvshl #b0000000000000001 (concat #b000000000000 (|top#31| state)))) ; $shl$measure/hamming.v:10$27_Y
(define-fun |top#34| ((state |top_s|)) (_ BitVec 16) (bvxor (|top#0| state) (|top#33| state))) ; \fixed
(define-fun |top#35| ((state |top_s|)) Bool (= (concat ((_ extract 15 9) (|top#34| state)) (concat ((_ extract 7 5) (|top#34| state)) ((_ extract 3 3) (|top#34| state)))) #b10110100011)) ; $0$formal$measure/hamming.v:12$4_CHECK[0:0]$10
(define-fun |top_u 2| ((state |top_s|)) Bool (or (|top#35| state) (not true))) ; $assume$measure/hamming.v:12$35
(define-fun |top_a| ((state |top_s|)) Bool true)
(define-fun |top_u| ((state |top_s|)) Bool (and
  (|top_u 0| state)
  (|top_u 1| state)
  (|top_u 2| state)
))
(define-fun |top_i| ((state |top_s|)) Bool true)
(define-fun |top_h| ((state |top_s|)) Bool true)
(define-fun |top_t| ((state |top_s|) (next_state |top_s|)) Bool true) ; end of module top
(declare-fun s () |top_s|)
(assert (|top_u| s))
(check-sat)
