(set-logic QF_BV)
(define-sort |top_s| () (_ BitVec 23))
(define-fun |top_is| ((state |top_s|)) Bool (= ((_ extract 0 0) state) #b1))
(define-fun |top#0| ((state |top_s|)) (_ BitVec 22) ((_ extract 22 1) state)) ; \line
(define-fun |top_n line| ((state |top_s|)) (_ BitVec 22) (|top#0| state))
(define-fun |top#1| ((state |top_s|)) Bool (bvult ((_ extract 19 12) (|top#0| state)) #b00110000)) ; $ge$measure/uart.v:11$32.less
(define-fun |top#2| ((state |top_s|)) (_ BitVec 1) (bvnot (ite (|top#1| state) #b1 #b0))) ; $ge$measure/uart.v:11$32_Y
(define-fun |top#3| ((state |top_s|)) Bool (bvult #b00111001 ((_ extract 19 12) (|top#0| state)))) ; $le$measure/uart.v:11$33.less
(define-fun |top#4| ((state |top_s|)) (_ BitVec 1) (bvnot (ite (|top#3| state) #b1 #b0))) ; $le$measure/uart.v:11$33_Y
(define-fun |top#5| ((state |top_s|)) (_ BitVec 1) (bvand (|top#2| state) (|top#4| state))) ; $0$formal$measure/uart.v:10$5_CHECK[0:0]$16
(define-fun |top_u 0| ((state |top_s|)) Bool (or (= ((_ extract 0 0) (|top#5| state)) #b1) (not true))) ; $assume$measure/uart.v:10$41
(define-fun |top#6| ((state |top_s|)) (_ BitVec 8) (bvadd ((_ extract 8 1) (|top#0| state)) ((_ extract 19 12) (|top#0| state)))) ; $add$measure/uart.v:12$35_Y
(define-fun |top#7| ((state |top_s|)) Bool (= (|top#6| state) #b01101011)) ; $0$formal$measure/uart.v:11$6_CHECK[0:0]$18
(define-fun |top_u 1| ((state |top_s|)) Bool (or (|top#7| state) (not true))) ; $assume$measure/uart.v:11$42
(define-fun |top#8| ((state |top_s|)) (_ BitVec 1) (bvnot ((_ extract 0 0) (|top#0| state)))) ; $logic_and$measure/uart.v:7$21.a
(define-fun |top#9| ((state |top_s|)) (_ BitVec 1) (bvand (|top#8| state) ((_ extract 10 10) (|top#0| state)))) ; $logic_and$measure/uart.v:7$21_Y
(define-fun |top#10| ((state |top_s|)) (_ BitVec 1) (bvnot ((_ extract 11 11) (|top#0| state)))) ; $logic_and$measure/uart.v:7$23.b
(define-fun |top#11| ((state |top_s|)) (_ BitVec 1) (bvand (|top#9| state) (|top#10| state))) ; $logic_and$measure/uart.v:7$23_Y
(define-fun |top#12| ((state |top_s|)) (_ BitVec 1) (bvand (|top#11| state) ((_ extract 21 21) (|top#0| state)))) ; $0$formal$measure/uart.v:6$1_CHECK[0:0]$8
(define-fun |top_u 2| ((state |top_s|)) Bool (or (= ((_ extract 0 0) (|top#12| state)) #b1) (not true))) ; $assume$measure/uart.v:6$37
(define-fun |top#13| ((state |top_s|)) (_ BitVec 4) (bvxor ((_ extract 4 1) (|top#0| state)) ((_ extract 9 6) (|top#0| state)))) ; $auto$opt_expr.cc:205:group_cell_inputs$72
(define-fun |top#14| ((state |top_s|)) (_ BitVec 2) (bvxor ((_ extract 1 0) (|top#13| state)) (concat ((_ extract 5 5) (|top#0| state)) ((_ extract 3 3) (|top#13| state))))) ; $auto$opt_expr.cc:205:group_cell_inputs$75
(define-fun |top#15| ((state |top_s|)) (_ BitVec 1) (bvxor ((_ extract 0 0) (|top#14| state)) ((_ extract 2 2) (|top#13| state)))) ; $auto$opt_expr.cc:205:group_cell_inputs$78
(define-fun |top#16| ((state |top_s|)) (_ BitVec 1) (bvxor (|top#15| state) ((_ extract 1 1) (|top#14| state)))) ; $0$formal$measure/uart.v:7$2_CHECK[0:0]$10
(define-fun |top_u 3| ((state |top_s|)) Bool (or (= ((_ extract 0 0) (|top#16| state)) #b1) (not true))) ; $assume$measure/uart.v:7$38
(define-fun |top#17| ((state |top_s|)) (_ BitVec 4) (bvxor ((_ extract 15 12) (|top#0| state)) ((_ extract 20 17) (|top#0| state)))) ; $auto$opt_expr.cc:205:group_cell_inputs$81
(define-fun |top#18| ((state |top_s|)) (_ BitVec 2) (bvxor ((_ extract 1 0) (|top#17| state)) (concat ((_ extract 16 16) (|top#0| state)) ((_ extract 3 3) (|top#17| state))))) ; $auto$opt_expr.cc:205:group_cell_inputs$84
(define-fun |top#19| ((state |top_s|)) (_ BitVec 1) (bvxor ((_ extract 0 0) (|top#18| state)) ((_ extract 2 2) (|top#17| state)))) ; $auto$opt_expr.cc:205:group_cell_inputs$87
(define-fun |top#20| ((state |top_s|)) (_ BitVec 1) (bvxor (|top#19| state) ((_ extract 1 1) (|top#18| state)))) ; $0$formal$measure/uart.v:8$3_CHECK[0:0]$12
(define-fun |top_u 4| ((state |top_s|)) Bool (or (= ((_ extract 0 0) (|top#20| state)) #b1) (not true))) ; $assume$measure/uart.v:8$39
(define-fun |top#21| ((state |top_s|)) Bool (bvult ((_ extract 8 1) (|top#0| state)) #b00110000)) ; $ge$measure/uart.v:10$29.less
(define-fun |top#22| ((state |top_s|)) (_ BitVec 1) (bvnot (ite (|top#21| state) #b1 #b0))) ; $ge$measure/uart.v:10$29_Y
(define-fun |top#23| ((state |top_s|)) Bool (bvult #b00111001 ((_ extract 8 1) (|top#0| state)))) ; $le$measure/uart.v:10$30.less
(define-fun |top#24| ((state |top_s|)) (_ BitVec 1) (bvnot (ite (|top#23| state) #b1 #b0))) ; $le$measure/uart.v:10$30_Y
(define-fun |top#25| ((state |top_s|)) (_ BitVec 1) (bvand (|top#22| state) (|top#24| state))) ; $0$formal$measure/uart.v:9$4_CHECK[0:0]$14
(define-fun |top_u 5| ((state |top_s|)) Bool (or (= ((_ extract 0 0) (|top#25| state)) #b1) (not true))) ; $assume$measure/uart.v:9$40
(define-fun |top_a| ((state |top_s|)) Bool true)
(define-fun |top_u| ((state |top_s|)) Bool (and
  (|top_u 0| state)
  (|top_u 1| state)
  (|top_u 2| state)
  (|top_u 3| state)
  (|top_u 4| state)
  (|top_u 5| state)
))
(define-fun |top_i| ((state |top_s|)) Bool true)
(define-fun |top_h| ((state |top_s|)) Bool true)
(define-fun |top_t| ((state |top_s|) (next_state |top_s|)) Bool true) ; end of module top
(declare-fun s () |top_s|)
(assert (|top_u| s))
(check-sat)
