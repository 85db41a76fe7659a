(set-logic QF_BV)
(define-sort |top_s| () (_ BitVec 25))
(define-fun |top_is| ((state |top_s|)) Bool (= ((_ extract 0 0) state) #b1))
(define-fun |top#0| ((state |top_s|)) (_ BitVec 8) ((_ extract 8 1) state)) ; \a
(define-fun |top_n a| ((state |top_s|)) (_ BitVec 8) (|top#0| state))
(define-fun |top#1| ((state |top_s|)) (_ BitVec 8) ((_ extract 16 9) state)) ; \b
(define-fun |top_n b| ((state |top_s|)) (_ BitVec 8) (|top#1| state))
(define-fun |top#2| ((state |top_s|)) (_ BitVec 8) ((_ extract 24 17) state)) ; \c
(define-fun |top_n c| ((state |top_s|)) (_ BitVec 8) (|top#2| state))
(define-fun |top#3| ((state |top_s|)) (_ BitVec 1) (bvnot ((_ extract 0 0) (|top#0| state)))) ; $auto$opt_expr.cc:205:group_cell_inputs$36 [4]
(define-fun |top#4| ((state |top_s|)) (_ BitVec 1) (bvnot ((_ extract 2 2) (|top#0| state)))) ; $auto$opt_expr.cc:205:group_cell_inputs$36 [5]
(define-fun |top#5| ((state |top_s|)) (_ BitVec 1) (bvnot ((_ extract 6 6) (|top#0| state)))) ; $auto$opt_expr.cc:205:group_cell_inputs$36 [6]
(define-fun |top#6| ((state |top_s|)) (_ BitVec 1) (bvnot ((_ extract 7 7) (|top#0| state)))) ; $auto$opt_expr.cc:205:group_cell_inputs$36 [7]
(define-fun |top#7| ((state |top_s|)) (_ BitVec 32) (bvmul (concat #b100000010001110010011101 (concat (|top#6| state) (concat (|top#5| state) (concat ((_ extract 5 3) (|top#0| state)) (concat (|top#4| state) (concat ((_ extract 1 1) (|top#0| state)) (|top#3| state))))))) #b00000001000000000000000110010011)) ; \h0
(define-fun |top#8| ((state |top_s|)) (_ BitVec 8) (bvxor ((_ extract 7 0) (|top#7| state)) (|top#1| state))) ; $auto$opt_expr.cc:205:group_cell_inputs$47
(define-fun |top#9| ((state |top_s|)) (_ BitVec 32) (bvmul (concat ((_ extract 31 8) (|top#7| state)) (|top#8| state)) #b00000001000000000000000110010011)) ; \h1
(define-fun |top#10| ((state |top_s|)) (_ BitVec 8) (bvxor ((_ extract 7 0) (|top#9| state)) (|top#2| state))) ; $auto$opt_expr.cc:205:group_cell_inputs$50
(define-fun |top#11| ((state |top_s|)) (_ BitVec 32) (bvmul (concat ((_ extract 31 8) (|top#9| state)) (|top#10| state)) #b00000001000000000000000110010011)) ; \h2
(define-fun |top#12| ((state |top_s|)) (_ BitVec 16) (bvxor ((_ extract 15 0) (|top#11| state)) ((_ extract 31 16) (|top#11| state)))) ; \h [15:0]
(define-fun |top#13| ((state |top_s|)) Bool (= ((_ extract 9 0) (|top#12| state)) #b0101010101)) ; $0$formal$measure/hash_bytes.v:10$4_CHECK[0:0]$20
(define-fun |top_u 0| ((state |top_s|)) Bool (or (|top#13| state) (not true))) ; $assume$measure/hash_bytes.v:10$35
(define-fun |top#14| ((state |top_s|)) Bool (bvult (|top#0| state) #b01100001)) ; $ge$measure/hash_bytes.v:8$22.less
(define-fun |top#15| ((state |top_s|)) (_ BitVec 1) (bvnot (ite (|top#14| state) #b1 #b0))) ; $ge$measure/hash_bytes.v:8$22_Y
(define-fun |top#16| ((state |top_s|)) Bool (bvult #b01111010 (|top#0| state))) ; $le$measure/hash_bytes.v:8$23.less
(define-fun |top#17| ((state |top_s|)) (_ BitVec 1) (bvnot (ite (|top#16| state) #b1 #b0))) ; $le$measure/hash_bytes.v:8$23_Y
(define-fun |top#18| ((state |top_s|)) (_ BitVec 1) (bvand (|top#15| state) (|top#17| state))) ; $0$formal$measure/hash_bytes.v:7$1_CHECK[0:0]$14
(define-fun |top_u 1| ((state |top_s|)) Bool (or (= ((_ extract 0 0) (|top#18| state)) #b1) (not true))) ; $assume$measure/hash_bytes.v:7$32
(define-fun |top#19| ((state |top_s|)) Bool (bvult (|top#1| state) #b01100001)) ; $ge$measure/hash_bytes.v:9$25.less
(define-fun |top#20| ((state |top_s|)) (_ BitVec 1) (bvnot (ite (|top#19| state) #b1 #b0))) ; $ge$measure/hash_bytes.v:9$25_Y
(define-fun |top#21| ((state |top_s|)) Bool (bvult #b01111010 (|top#1| state))) ; $le$measure/hash_bytes.v:9$26.less
(define-fun |top#22| ((state |top_s|)) (_ BitVec 1) (bvnot (ite (|top#21| state) #b1 #b0))) ; $le$measure/hash_bytes.v:9$26_Y
(define-fun |top#23| ((state |top_s|)) (_ BitVec 1) (bvand (|top#20| state) (|top#22| state))) ; $0$formal$measure/hash_bytes.v:8$2_CHECK[0:0]$16
(define-fun |top_u 2| ((state |top_s|)) Bool (or (= ((_ extract 0 0) (|top#23| state)) #b1) (not true))) ; $assume$measure/hash_bytes.v:8$33
(define-fun |top#24| ((state |top_s|)) Bool (bvult (|top#2| state) #b01100001)) ; $ge$measure/hash_bytes.v:10$28.less
(define-fun |top#25| ((state |top_s|)) (_ BitVec 1) (bvnot (ite (|top#24| state) #b1 #b0))) ; $ge$measure/hash_bytes.v:10$28_Y
(define-fun |top#26| ((state |top_s|)) Bool (bvult #b01111010 (|top#2| state))) ; $le$measure/hash_bytes.v:10$29.less
(define-fun |top#27| ((state |top_s|)) (_ BitVec 1) (bvnot (ite (|top#26| state) #b1 #b0))) ; $le$measure/hash_bytes.v:10$29_Y
(define-fun |top#28| ((state |top_s|)) (_ BitVec 1) (bvand (|top#25| state) (|top#27| state))) ; $0$formal$measure/hash_bytes.v:9$3_CHECK[0:0]$18
(define-fun |top_u 3| ((state |top_s|)) Bool (or (= ((_ extract 0 0) (|top#28| state)) #b1) (not true))) ; $assume$measure/hash_bytes.v:9$34
(define-fun |top_a| ((state |top_s|)) Bool true)
(define-fun |top_u| ((state |top_s|)) Bool (and
  (|top_u 0| state)
  (|top_u 1| state)
  (|top_u 2| state)
  (|top_u 3| state)
))
(define-fun |top_i| ((state |top_s|)) Bool true)
(define-fun |top_h| ((state |top_s|)) Bool true)
(define-fun |top_t| ((state |top_s|) (next_state |top_s|)) Bool true) ; end of module top
(declare-fun s () |top_s|)
(assert (|top_u| s))
(check-sat)
