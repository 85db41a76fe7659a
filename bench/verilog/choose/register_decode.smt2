(set-logic QF_BV)
(define-sort |top_s| () (_ BitVec 37))
(define-fun |top_is| ((state |top_s|)) Bool (= ((_ extract 0 0) state) #b1))
(define-fun |top#0| ((state |top_s|)) (_ BitVec 32) ((_ extract 32 1) state)) ; \address
(define-fun |top_n address| ((state |top_s|)) (_ BitVec 32) (|top#0| state))
(define-fun |top#1| ((state |top_s|)) (_ BitVec 4) ((_ extract 36 33) state)) ; \strobe
(define-fun |top_n strobe| ((state |top_s|)) (_ BitVec 4) (|top#1| state))
(define-fun |top#2| ((state |top_s|)) Bool (= ((_ extract 31 16) (|top#0| state)) #b0100000000000010)) ; $eq$choose/register_decode.v:5$13_Y
(define-fun |top#3| ((state |top_s|)) (_ BitVec 1) (bvnot ((_ extract 15 15) (|top#0| state)))) ; $logic_and$choose/register_decode.v:5$15.b
(define-fun |top#4| ((state |top_s|)) (_ BitVec 1) (bvand (ite (|top#2| state) #b1 #b0) (|top#3| state))) ; \gpio
(define-fun |top#5| ((state |top_s|)) (_ BitVec 1) (bvnot (|top#4| state))) ; $0$formal$choose/register_decode.v:10$3_CHECK[0:0]$24
(define-fun |top_u 0| ((state |top_s|)) Bool (or (= ((_ extract 0 0) (|top#5| state)) #b1) (not true))) ; $assume$choose/register_decode.v:10$50
(define-fun |top#6| ((state |top_s|)) Bool (= ((_ extract 1 0) (|top#0| state)) #b00)) ; $0$formal$choose/register_decode.v:11$4_CHECK[0:0]$26
(define-fun |top_u 1| ((state |top_s|)) Bool (or (|top#6| state) (not true))) ; $assume$choose/register_decode.v:11$51
(define-fun |top#7| ((state |top_s|)) (_ BitVec 8) (bvshl #b00000001 (concat #b00000 ((_ extract 4 2) (|top#0| state))))) ; \field
(define-fun |top#8| ((state |top_s|)) Bool (= (|top#7| state) #b00100000)) ; $0$formal$choose/register_decode.v:12$5_CHECK[0:0]$28
(define-fun |top_u 2| ((state |top_s|)) Bool (or (|top#8| state) (not true))) ; $assume$choose/register_decode.v:12$52
(define-fun |top#9| ((state |top_s|)) Bool (distinct (|top#1| state) #b0000)) ; $logic_and$choose/register_decode.v:14$45.a
(define-fun |top#10| ((state |top_s|)) (_ BitVec 4) (bvsub (|top#1| state) #b0001)) ; $sub$choose/register_decode.v:14$42_Y
(define-fun |top#11| ((state |top_s|)) (_ BitVec 4) (bvand (|top#1| state) (|top#10| state))) ; $and$choose/register_decode.v:14$43_Y
(define-fun |top#12| ((state |top_s|)) Bool (= (|top#11| state) #b0000)) ; $eq$choose/register_decode.v:14$44_Y
(define-fun |top#13| ((state |top_s|)) (_ BitVec 1) (bvand (ite (|top#9| state) #b1 #b0) (ite (|top#12| state) #b1 #b0))) ; $0$formal$choose/register_decode.v:13$6_CHECK[0:0]$30
(define-fun |top_u 3| ((state |top_s|)) Bool (or (= ((_ extract 0 0) (|top#13| state)) #b1) (not true))) ; $assume$choose/register_decode.v:13$53
(define-fun |top#14| ((state |top_s|)) (_ BitVec 4) (bvxor ((_ extract 9 6) (|top#0| state)) (|top#1| state))) ; $xor$choose/register_decode.v:15$46_Y
(define-fun |top#15| ((state |top_s|)) Bool (= (|top#14| state) #b1011)) ; $0$formal$choose/register_decode.v:14$7_CHECK[0:0]$32
(define-fun |top_u 4| ((state |top_s|)) Bool (or (|top#15| state) (not true))) ; $assume$choose/register_decode.v:14$54
(define-fun |top#16| ((state |top_s|)) Bool (= ((_ extract 31 12) (|top#0| state)) #b01000000000000000001)) ; \timer
(define-fun |top#17| ((state |top_s|)) Bool (bvult (|top#0| state) #b01000000000000000010000000000000)) ; $ge$choose/register_decode.v:4$10.less
(define-fun |top#18| ((state |top_s|)) (_ BitVec 1) (bvnot (ite (|top#17| state) #b1 #b0))) ; $ge$choose/register_decode.v:4$10_Y
(define-fun |top#19| ((state |top_s|)) Bool (bvult (|top#0| state) #b01000000000000000010010000000000)) ; $logic_and$choose/register_decode.v:4$12.b
(define-fun |top#20| ((state |top_s|)) (_ BitVec 1) (bvand (|top#18| state) (ite (|top#19| state) #b1 #b0))) ; \uart
(define-fun |top#21| ((state |top_s|)) (_ BitVec 1) (bvxor (ite (|top#16| state) #b1 #b0) (|top#20| state))) ; $xor$choose/register_decode.v:9$34_Y
(define-fun |top#22| ((state |top_s|)) (_ BitVec 1) (bvxor (|top#21| state) (|top#4| state))) ; $xor$choose/register_decode.v:9$35_Y
(define-fun |top#23| ((state |top_s|)) Bool (= ((_ extract 31 20) (|top#0| state)) #b010000000010)) ; \dma
(define-fun |top#24| ((state |top_s|)) (_ BitVec 1) (bvxor (|top#22| state) (ite (|top#23| state) #b1 #b0))) ; $0$formal$choose/register_decode.v:8$1_CHECK[0:0]$20
(define-fun |top_u 5| ((state |top_s|)) Bool (or (= ((_ extract 0 0) (|top#24| state)) #b1) (not true))) ; $assume$choose/register_decode.v:8$48
(define-fun |top#25| ((state |top_s|)) (_ BitVec 1) (bvnot (ite (|top#16| state) #b1 #b0))) ; $0$formal$choose/register_decode.v:9$2_CHECK[0:0]$22
(define-fun |top_u 6| ((state |top_s|)) Bool (or (= ((_ extract 0 0) (|top#25| state)) #b1) (not true))) ; $assume$choose/register_decode.v:9$49
(define-fun |top_a| ((state |top_s|)) Bool true)
(define-fun |top_u| ((state |top_s|)) Bool (and
  (|top_u 0| state)
  (|top_u 1| state)
  (|top_u 2| state)
  (|top_u 3| state)
  (|top_u 4| state)
  (|top_u 5| state)
  (|top_u 6| state)
))
(define-fun |top_i| ((state |top_s|)) Bool true)
(define-fun |top_h| ((state |top_s|)) Bool true)
(define-fun |top_t| ((state |top_s|) (next_state |top_s|)) Bool true) ; end of module top
(declare-fun s () |top_s|)
(assert (|top_u| s))
(check-sat)
