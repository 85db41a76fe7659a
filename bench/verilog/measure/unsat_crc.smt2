(set-logic QF_BV)
(define-sort |top_s| () (_ BitVec 17))
(define-fun |top_is| ((state |top_s|)) Bool (= ((_ extract 0 0) state) #b1))
(define-fun |top#0| ((state |top_s|)) (_ BitVec 8) ((_ extract 8 1) state)) ; \x
(define-fun |top_n x| ((state |top_s|)) (_ BitVec 8) (|top#0| state))
(define-fun |top#1| ((state |top_s|)) (_ BitVec 8) ((_ extract 16 9) state)) ; \y
(define-fun |top_n y| ((state |top_s|)) (_ BitVec 8) (|top#1| state))
(define-fun |top#2| ((state |top_s|)) (_ BitVec 8) (bvxor (|top#0| state) (|top#1| state))) ; \d
(define-fun |top#3| ((state |top_s|)) Bool (distinct (|top#2| state) #b00000000)) ; $logic_and$measure/unsat_crc.v:12$22.a
(define-fun |top#4| ((state |top_s|)) (_ BitVec 8) (bvsub (|top#2| state) #b00000001)) ; $sub$measure/unsat_crc.v:12$19_Y
(define-fun |top#5| ((state |top_s|)) (_ BitVec 8) (bvand (|top#2| state) (|top#4| state))) ; $and$measure/unsat_crc.v:12$20_Y
(define-fun |top#6| ((state |top_s|)) Bool (= (|top#5| state) #b00000000)) ; $eq$measure/unsat_crc.v:12$21_Y
(define-fun |top#7| ((state |top_s|)) (_ BitVec 1) (bvand (ite (|top#3| state) #b1 #b0) (ite (|top#6| state) #b1 #b0))) ; $0$formal$measure/unsat_crc.v:11$4_CHECK[0:0]$14
(define-fun |top_u 0| ((state |top_s|)) Bool (or (= ((_ extract 0 0) (|top#7| state)) #b1) (not true))) ; $assume$measure/unsat_crc.v:11$72
(define-fun |top#8| ((state |top_s|)) (_ BitVec 1) (bvxor ((_ extract 7 7) (|top#0| state)) ((_ extract 4 4) (|top#0| state)))) ; $auto$opt_expr.cc:205:group_cell_inputs$82
(define-fun |top#9| ((state |top_s|)) (_ BitVec 1) (bvxor ((_ extract 7 7) (|top#0| state)) ((_ extract 6 6) (|top#0| state)))) ; $auto$opt_expr.cc:205:group_cell_inputs$116
(define-fun |top#10| ((state |top_s|)) (_ BitVec 1) (bvxor (|top#9| state) ((_ extract 3 3) (|top#0| state)))) ; $auto$opt_expr.cc:205:group_cell_inputs$85
(define-fun |top#11| ((state |top_s|)) (_ BitVec 1) (bvxor (|top#8| state) (|top#10| state))) ; $auto$opt_expr.cc:205:group_cell_inputs$127
(define-fun |top#12| ((state |top_s|)) (_ BitVec 1) (bvxor (|top#11| state) ((_ extract 0 0) (|top#0| state)))) ; $0\crc$func$measure/unsat_crc.v:13$2.$result[3:0]$8 [0]
(define-fun |top#13| ((state |top_s|)) (_ BitVec 1) (bvxor ((_ extract 5 5) (|top#0| state)) (|top#8| state))) ; $auto$opt_expr.cc:205:group_cell_inputs$124
(define-fun |top#14| ((state |top_s|)) (_ BitVec 1) (bvxor (|top#13| state) ((_ extract 1 1) (|top#0| state)))) ; $auto$opt_expr.cc:205:group_cell_inputs$91
(define-fun |top#15| ((state |top_s|)) (_ BitVec 1) (bvxor (|top#14| state) (|top#12| state))) ; $0\crc$func$measure/unsat_crc.v:13$2.$result[3:0]$8 [1]
(define-fun |top#16| ((state |top_s|)) (_ BitVec 1) (bvxor ((_ extract 6 6) (|top#0| state)) ((_ extract 5 5) (|top#0| state)))) ; $auto$opt_expr.cc:205:group_cell_inputs$121
(define-fun |top#17| ((state |top_s|)) (_ BitVec 1) (bvxor (|top#16| state) ((_ extract 2 2) (|top#0| state)))) ; $auto$opt_expr.cc:205:group_cell_inputs$88
(define-fun |top#18| ((state |top_s|)) (_ BitVec 1) (bvxor (|top#17| state) (|top#14| state))) ; $0\crc$func$measure/unsat_crc.v:13$2.$result[3:0]$8 [2]
(define-fun |top#19| ((state |top_s|)) (_ BitVec 1) (bvxor (|top#10| state) (|top#17| state))) ; $0\crc$func$measure/unsat_crc.v:13$2.$result[3:0]$8 [3]
(define-fun |top#20| ((state |top_s|)) (_ BitVec 1) (bvxor ((_ extract 7 7) (|top#1| state)) ((_ extract 4 4) (|top#1| state)))) ; $auto$opt_expr.cc:205:group_cell_inputs$103
(define-fun |top#21| ((state |top_s|)) (_ BitVec 1) (bvxor ((_ extract 7 7) (|top#1| state)) ((_ extract 6 6) (|top#1| state)))) ; $auto$opt_expr.cc:205:group_cell_inputs$101 [2]
(define-fun |top#22| ((state |top_s|)) (_ BitVec 1) (bvxor (|top#21| state) ((_ extract 3 3) (|top#1| state)))) ; $auto$opt_expr.cc:205:group_cell_inputs$106
(define-fun |top#23| ((state |top_s|)) (_ BitVec 1) (bvxor (|top#20| state) (|top#22| state))) ; $auto$opt_expr.cc:205:group_cell_inputs$104 [0]
(define-fun |top#24| ((state |top_s|)) (_ BitVec 1) (bvxor (|top#23| state) ((_ extract 0 0) (|top#1| state)))) ; $0\crc$func$measure/unsat_crc.v:13$3.$result[3:0]$11 [0]
(define-fun |top#25| ((state |top_s|)) (_ BitVec 1) (bvxor ((_ extract 5 5) (|top#1| state)) (|top#20| state))) ; $auto$opt_expr.cc:205:group_cell_inputs$101 [0]
(define-fun |top#26| ((state |top_s|)) (_ BitVec 1) (bvxor (|top#25| state) ((_ extract 1 1) (|top#1| state)))) ; $auto$opt_expr.cc:205:group_cell_inputs$112
(define-fun |top#27| ((state |top_s|)) (_ BitVec 1) (bvxor (|top#26| state) (|top#24| state))) ; $0\crc$func$measure/unsat_crc.v:13$3.$result[3:0]$11 [1]
(define-fun |top#28| ((state |top_s|)) (_ BitVec 1) (bvxor ((_ extract 6 6) (|top#1| state)) ((_ extract 5 5) (|top#1| state)))) ; $auto$opt_expr.cc:205:group_cell_inputs$101 [1]
(define-fun |top#29| ((state |top_s|)) (_ BitVec 1) (bvxor (|top#28| state) ((_ extract 2 2) (|top#1| state)))) ; $auto$opt_expr.cc:205:group_cell_inputs$109
(define-fun |top#30| ((state |top_s|)) (_ BitVec 1) (bvxor (|top#29| state) (|top#26| state))) ; $0\crc$func$measure/unsat_crc.v:13$3.$result[3:0]$11 [2]
(define-fun |top#31| ((state |top_s|)) (_ BitVec 1) (bvxor (|top#22| state) (|top#29| state))) ; $0\crc$func$measure/unsat_crc.v:13$3.$result[3:0]$11 [3]
(define-fun |top#32| ((state |top_s|)) Bool (= (concat (|top#19| state) (concat (|top#18| state) (concat (|top#15| state) (|top#12| state)))) (concat (|top#31| state) (concat (|top#30| state) (concat (|top#27| state) (|top#24| state)))))) ; $0$formal$measure/unsat_crc.v:12$5_CHECK[0:0]$16
(define-fun |top_u 1| ((state |top_s|)) Bool (or (|top#32| state) (not true))) ; $assume$measure/unsat_crc.v:12$73
(define-fun |top_a| ((state |top_s|)) Bool true)
(define-fun |top_u| ((state |top_s|)) Bool (and
  (|top_u 0| state)
  (|top_u 1| state)
))
(define-fun |top_i| ((state |top_s|)) Bool true)
(define-fun |top_h| ((state |top_s|)) Bool true)
(define-fun |top_t| ((state |top_s|) (next_state |top_s|)) Bool true) ; end of module top
(declare-fun s () |top_s|)
(assert (|top_u| s))
(check-sat)
