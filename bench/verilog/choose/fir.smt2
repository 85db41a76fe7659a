(set-logic QF_BV)
(define-sort |top_s| () (_ BitVec 85))
(define-fun |top_is| ((state |top_s|)) Bool (= ((_ extract 0 0) state) #b1))
(define-fun |top#0| ((state |top_s|)) (_ BitVec 12) ((_ extract 12 1) state)) ; \x0
(define-fun |top_n x0| ((state |top_s|)) (_ BitVec 12) (|top#0| state))
(define-fun |top#1| ((state |top_s|)) (_ BitVec 12) ((_ extract 24 13) state)) ; \x1
(define-fun |top_n x1| ((state |top_s|)) (_ BitVec 12) (|top#1| state))
(define-fun |top#2| ((state |top_s|)) (_ BitVec 12) ((_ extract 36 25) state)) ; \x2
(define-fun |top_n x2| ((state |top_s|)) (_ BitVec 12) (|top#2| state))
(define-fun |top#3| ((state |top_s|)) (_ BitVec 12) ((_ extract 48 37) state)) ; \x3
(define-fun |top_n x3| ((state |top_s|)) (_ BitVec 12) (|top#3| state))
(define-fun |top#4| ((state |top_s|)) (_ BitVec 12) ((_ extract 60 49) state)) ; \x4
(define-fun |top_n x4| ((state |top_s|)) (_ BitVec 12) (|top#4| state))
(define-fun |top#5| ((state |top_s|)) (_ BitVec 12) ((_ extract 72 61) state)) ; \x5
(define-fun |top_n x5| ((state |top_s|)) (_ BitVec 12) (|top#5| state))
(define-fun |top#6| ((state |top_s|)) (_ BitVec 12) ((_ extract 84 73) state)) ; \x6
(define-fun |top_n x6| ((state |top_s|)) (_ BitVec 12) (|top#6| state))
(define-fun |top#7| ((state |top_s|)) (_ BitVec 20) (bvmul #b00000000000000000011 (concat ((_ extract 11 11) (|top#0| state)) (concat ((_ extract 11 11) (|top#0| state)) (concat ((_ extract 11 11) (|top#0| state)) (concat ((_ extract 11 11) (|top#0| state)) (concat ((_ extract 11 11) (|top#0| state)) (concat ((_ extract 11 11) (|top#0| state)) (concat ((_ extract 11 11) (|top#0| state)) (concat ((_ extract 11 11) (|top#0| state)) (|top#0| state))))))))))) ; $mul$choose/fir.v:3$8_Y
(define-fun |top#8| ((state |top_s|)) (_ BitVec 20) (bvmul #b00000000000000000111 (concat ((_ extract 11 11) (|top#1| state)) (concat ((_ extract 11 11) (|top#1| state)) (concat ((_ extract 11 11) (|top#1| state)) (concat ((_ extract 11 11) (|top#1| state)) (concat ((_ extract 11 11) (|top#1| state)) (concat ((_ extract 11 11) (|top#1| state)) (concat ((_ extract 11 11) (|top#1| state)) (concat ((_ extract 11 11) (|top#1| state)) (|top#1| state))))))))))) ; $mul$choose/fir.v:3$9_Y
(define-fun |top#9| ((state |top_s|)) (_ BitVec 20) (bvsub (|top#7| state) (|top#8| state))) ; $sub$choose/fir.v:3$10_Y
(define-fun |top#10| ((state |top_s|)) (_ BitVec 20) (bvmul #b00000000000000001011 (concat ((_ extract 11 11) (|top#2| state)) (concat ((_ extract 11 11) (|top#2| state)) (concat ((_ extract 11 11) (|top#2| state)) (concat ((_ extract 11 11) (|top#2| state)) (concat ((_ extract 11 11) (|top#2| state)) (concat ((_ extract 11 11) (|top#2| state)) (concat ((_ extract 11 11) (|top#2| state)) (concat ((_ extract 11 11) (|top#2| state)) (|top#2| state))))))))))) ; $mul$choose/fir.v:3$11_Y
(define-fun |top#11| ((state |top_s|)) (_ BitVec 20) (bvadd (|top#9| state) (|top#10| state))) ; $add$choose/fir.v:3$12_Y
(define-fun |top#12| ((state |top_s|)) (_ BitVec 20) (bvmul #b00000000000000000101 (concat ((_ extract 11 11) (|top#3| state)) (concat ((_ extract 11 11) (|top#3| state)) (concat ((_ extract 11 11) (|top#3| state)) (concat ((_ extract 11 11) (|top#3| state)) (concat ((_ extract 11 11) (|top#3| state)) (concat ((_ extract 11 11) (|top#3| state)) (concat ((_ extract 11 11) (|top#3| state)) (concat ((_ extract 11 11) (|top#3| state)) (|top#3| state))))))))))) ; $mul$choose/fir.v:3$13_Y
(define-fun |top#13| ((state |top_s|)) (_ BitVec 20) (bvadd (|top#11| state) (|top#12| state))) ; \y0
(define-fun |top#14| ((state |top_s|)) Bool (bvslt #b00000000111110100000 (|top#13| state))) ; $gt$choose/fir.v:11$60_Y
(define-fun |top#15| ((state |top_s|)) Bool (bvslt (|top#13| state) #b00000001000000000100)) ; $logic_and$choose/fir.v:11$62.b
(define-fun |top#16| ((state |top_s|)) (_ BitVec 1) (bvand (ite (|top#14| state) #b1 #b0) (ite (|top#15| state) #b1 #b0))) ; $0$formal$choose/fir.v:10$4_CHECK[0:0]$43
(define-fun |top_u 0| ((state |top_s|)) Bool (or (= ((_ extract 0 0) (|top#16| state)) #b1) (not true))) ; $assume$choose/fir.v:10$71
(define-fun |top#17| ((state |top_s|)) (_ BitVec 20) (bvmul #b00000000000000000011 (concat ((_ extract 11 11) (|top#1| state)) (concat ((_ extract 11 11) (|top#1| state)) (concat ((_ extract 11 11) (|top#1| state)) (concat ((_ extract 11 11) (|top#1| state)) (concat ((_ extract 11 11) (|top#1| state)) (concat ((_ extract 11 11) (|top#1| state)) (concat ((_ extract 11 11) (|top#1| state)) (concat ((_ extract 11 11) (|top#1| state)) (|top#1| state))))))))))) ; $mul$choose/fir.v:4$15_Y
(define-fun |top#18| ((state |top_s|)) (_ BitVec 20) (bvmul #b00000000000000000111 (concat ((_ extract 11 11) (|top#2| state)) (concat ((_ extract 11 11) (|top#2| state)) (concat ((_ extract 11 11) (|top#2| state)) (concat ((_ extract 11 11) (|top#2| state)) (concat ((_ extract 11 11) (|top#2| state)) (concat ((_ extract 11 11) (|top#2| state)) (concat ((_ extract 11 11) (|top#2| state)) (concat ((_ extract 11 11) (|top#2| state)) (|top#2| state))))))))))) ; $mul$choose/fir.v:4$16_Y
(define-fun |top#19| ((state |top_s|)) (_ BitVec 20) (bvsub (|top#17| state) (|top#18| state))) ; $sub$choose/fir.v:4$17_Y
(define-fun |top#20| ((state |top_s|)) (_ BitVec 20) (bvmul #b00000000000000001011 (concat ((_ extract 11 11) (|top#3| state)) (concat ((_ extract 11 11) (|top#3| state)) (concat ((_ extract 11 11) (|top#3| state)) (concat ((_ extract 11 11) (|top#3| state)) (concat ((_ extract 11 11) (|top#3| state)) (concat ((_ extract 11 11) (|top#3| state)) (concat ((_ extract 11 11) (|top#3| state)) (concat ((_ extract 11 11) (|top#3| state)) (|top#3| state))))))))))) ; $mul$choose/fir.v:4$18_Y
(define-fun |top#21| ((state |top_s|)) (_ BitVec 20) (bvadd (|top#19| state) (|top#20| state))) ; $add$choose/fir.v:4$19_Y
(define-fun |top#22| ((state |top_s|)) (_ BitVec 20) (bvmul #b00000000000000000101 (concat ((_ extract 11 11) (|top#4| state)) (concat ((_ extract 11 11) (|top#4| state)) (concat ((_ extract 11 11) (|top#4| state)) (concat ((_ extract 11 11) (|top#4| state)) (concat ((_ extract 11 11) (|top#4| state)) (concat ((_ extract 11 11) (|top#4| state)) (concat ((_ extract 11 11) (|top#4| state)) (concat ((_ extract 11 11) (|top#4| state)) (|top#4| state))))))))))) ; $mul$choose/fir.v:4$20_Y
(define-fun |top#23| ((state |top_s|)) (_ BitVec 20) (bvadd (|top#21| state) (|top#22| state))) ; \y1
(define-fun |top#24| ((state |top_s|)) Bool (bvslt (|top#23| state) #b11111111011000111100)) ; $logic_and$choose/fir.v:12$65.a
(define-fun |top#25| ((state |top_s|)) Bool (bvslt #b11111111010111011000 (|top#23| state))) ; $gt$choose/fir.v:12$64_Y
(define-fun |top#26| ((state |top_s|)) (_ BitVec 1) (bvand (ite (|top#24| state) #b1 #b0) (ite (|top#25| state) #b1 #b0))) ; $0$formal$choose/fir.v:11$5_CHECK[0:0]$45
(define-fun |top_u 1| ((state |top_s|)) Bool (or (= ((_ extract 0 0) (|top#26| state)) #b1) (not true))) ; $assume$choose/fir.v:11$72
(define-fun |top#27| ((state |top_s|)) (_ BitVec 20) (bvmul #b00000000000000000011 (concat ((_ extract 11 11) (|top#2| state)) (concat ((_ extract 11 11) (|top#2| state)) (concat ((_ extract 11 11) (|top#2| state)) (concat ((_ extract 11 11) (|top#2| state)) (concat ((_ extract 11 11) (|top#2| state)) (concat ((_ extract 11 11) (|top#2| state)) (concat ((_ extract 11 11) (|top#2| state)) (concat ((_ extract 11 11) (|top#2| state)) (|top#2| state))))))))))) ; $mul$choose/fir.v:5$22_Y
(define-fun |top#28| ((state |top_s|)) (_ BitVec 20) (bvmul #b00000000000000000111 (concat ((_ extract 11 11) (|top#3| state)) (concat ((_ extract 11 11) (|top#3| state)) (concat ((_ extract 11 11) (|top#3| state)) (concat ((_ extract 11 11) (|top#3| state)) (concat ((_ extract 11 11) (|top#3| state)) (concat ((_ extract 11 11) (|top#3| state)) (concat ((_ extract 11 11) (|top#3| state)) (concat ((_ extract 11 11) (|top#3| state)) (|top#3| state))))))))))) ; $mul$choose/fir.v:5$23_Y
(define-fun |top#29| ((state |top_s|)) (_ BitVec 20) (bvsub (|top#27| state) (|top#28| state))) ; $sub$choose/fir.v:5$24_Y
(define-fun |top#30| ((state |top_s|)) (_ BitVec 20) (bvmul #b00000000000000001011 (concat ((_ extract 11 11) (|top#4| state)) (concat ((_ extract 11 11) (|top#4| state)) (concat ((_ extract 11 11) (|top#4| state)) (concat ((_ extract 11 11) (|top#4| state)) (concat ((_ extract 11 11) (|top#4| state)) (concat ((_ extract 11 11) (|top#4| state)) (concat ((_ extract 11 11) (|top#4| state)) (concat ((_ extract 11 11) (|top#4| state)) (|top#4| state))))))))))) ; $mul$choose/fir.v:5$25_Y
(define-fun |top#31| ((state |top_s|)) (_ BitVec 20) (bvadd (|top#29| state) (|top#30| state))) ; $add$choose/fir.v:5$26_Y
(define-fun |top#32| ((state |top_s|)) (_ BitVec 20) (bvmul #b00000000000000000101 (concat ((_ extract 11 11) (|top#5| state)) (concat ((_ extract 11 11) (|top#5| state)) (concat ((_ extract 11 11) (|top#5| state)) (concat ((_ extract 11 11) (|top#5| state)) (concat ((_ extract 11 11) (|top#5| state)) (concat ((_ extract 11 11) (|top#5| state)) (concat ((_ extract 11 11) (|top#5| state)) (concat ((_ extract 11 11) (|top#5| state)) (|top#5| state))))))))))) ; $mul$choose/fir.v:5$27_Y
(define-fun |top#33| ((state |top_s|)) (_ BitVec 20) (bvadd (|top#31| state) (|top#32| state))) ; \y2
(define-fun |top#34| ((state |top_s|)) Bool (= (|top#33| state) #b00000000010011010010)) ; $0$formal$choose/fir.v:12$6_CHECK[0:0]$47
(define-fun |top_u 2| ((state |top_s|)) Bool (or (|top#34| state) (not true))) ; $assume$choose/fir.v:12$73
(define-fun |top#35| ((state |top_s|)) (_ BitVec 20) (bvmul #b00000000000000000011 (concat ((_ extract 11 11) (|top#3| state)) (concat ((_ extract 11 11) (|top#3| state)) (concat ((_ extract 11 11) (|top#3| state)) (concat ((_ extract 11 11) (|top#3| state)) (concat ((_ extract 11 11) (|top#3| state)) (concat ((_ extract 11 11) (|top#3| state)) (concat ((_ extract 11 11) (|top#3| state)) (concat ((_ extract 11 11) (|top#3| state)) (|top#3| state))))))))))) ; $mul$choose/fir.v:6$29_Y
(define-fun |top#36| ((state |top_s|)) (_ BitVec 20) (bvmul #b00000000000000000111 (concat ((_ extract 11 11) (|top#4| state)) (concat ((_ extract 11 11) (|top#4| state)) (concat ((_ extract 11 11) (|top#4| state)) (concat ((_ extract 11 11) (|top#4| state)) (concat ((_ extract 11 11) (|top#4| state)) (concat ((_ extract 11 11) (|top#4| state)) (concat ((_ extract 11 11) (|top#4| state)) (concat ((_ extract 11 11) (|top#4| state)) (|top#4| state))))))))))) ; $mul$choose/fir.v:6$30_Y
(define-fun |top#37| ((state |top_s|)) (_ BitVec 20) (bvsub (|top#35| state) (|top#36| state))) ; $sub$choose/fir.v:6$31_Y
(define-fun |top#38| ((state |top_s|)) (_ BitVec 20) (bvmul #b00000000000000001011 (concat ((_ extract 11 11) (|top#5| state)) (concat ((_ extract 11 11) (|top#5| state)) (concat ((_ extract 11 11) (|top#5| state)) (concat ((_ extract 11 11) (|top#5| state)) (concat ((_ extract 11 11) (|top#5| state)) (concat ((_ extract 11 11) (|top#5| state)) (concat ((_ extract 11 11) (|top#5| state)) (concat ((_ extract 11 11) (|top#5| state)) (|top#5| state))))))))))) ; $mul$choose/fir.v:6$32_Y
(define-fun |top#39| ((state |top_s|)) (_ BitVec 20) (bvadd (|top#37| state) (|top#38| state))) ; $add$choose/fir.v:6$33_Y
(define-fun |top#40| ((state |top_s|)) (_ BitVec 20) (bvmul #b00000000000000000101 (concat ((_ extract 11 11) (|top#6| state)) (concat ((_ extract 11 11) (|top#6| state)) (concat ((_ extract 11 11) (|top#6| state)) (concat ((_ extract 11 11) (|top#6| state)) (concat ((_ extract 11 11) (|top#6| state)) (concat ((_ extract 11 11) (|top#6| state)) (concat ((_ extract 11 11) (|top#6| state)) (concat ((_ extract 11 11) (|top#6| state)) (|top#6| state))))))))))) ; $mul$choose/fir.v:6$34_Y
(define-fun |top#41| ((state |top_s|)) (_ BitVec 20) (bvadd (|top#39| state) (|top#40| state))) ; \y3
(define-fun |top#42| ((state |top_s|)) Bool (bvslt #b00000000000001100100 (|top#41| state))) ; $0$formal$choose/fir.v:13$7_CHECK[0:0]$49
(define-fun |top_u 3| ((state |top_s|)) Bool (or (|top#42| state) (not true))) ; $assume$choose/fir.v:13$74
(define-fun |top#43| ((state |top_s|)) Bool (bvslt #b110001111100 (|top#0| state))) ; $gt$choose/fir.v:8$51_Y
(define-fun |top#44| ((state |top_s|)) Bool (bvslt (|top#0| state) #b001110000100)) ; $logic_and$choose/fir.v:8$53.b
(define-fun |top#45| ((state |top_s|)) (_ BitVec 1) (bvand (ite (|top#43| state) #b1 #b0) (ite (|top#44| state) #b1 #b0))) ; $0$formal$choose/fir.v:7$1_CHECK[0:0]$37
(define-fun |top_u 4| ((state |top_s|)) Bool (or (= ((_ extract 0 0) (|top#45| state)) #b1) (not true))) ; $assume$choose/fir.v:7$68
(define-fun |top#46| ((state |top_s|)) Bool (bvslt #b110001111100 (|top#3| state))) ; $gt$choose/fir.v:9$54_Y
(define-fun |top#47| ((state |top_s|)) Bool (bvslt (|top#3| state) #b001110000100)) ; $logic_and$choose/fir.v:9$56.b
(define-fun |top#48| ((state |top_s|)) (_ BitVec 1) (bvand (ite (|top#46| state) #b1 #b0) (ite (|top#47| state) #b1 #b0))) ; $0$formal$choose/fir.v:8$2_CHECK[0:0]$39
(define-fun |top_u 5| ((state |top_s|)) Bool (or (= ((_ extract 0 0) (|top#48| state)) #b1) (not true))) ; $assume$choose/fir.v:8$69
(define-fun |top#49| ((state |top_s|)) Bool (bvslt #b110001111100 (|top#6| state))) ; $gt$choose/fir.v:10$57_Y
(define-fun |top#50| ((state |top_s|)) Bool (bvslt (|top#6| state) #b001110000100)) ; $logic_and$choose/fir.v:10$59.b
(define-fun |top#51| ((state |top_s|)) (_ BitVec 1) (bvand (ite (|top#49| state) #b1 #b0) (ite (|top#50| state) #b1 #b0))) ; $0$formal$choose/fir.v:9$3_CHECK[0:0]$41
(define-fun |top_u 6| ((state |top_s|)) Bool (or (= ((_ extract 0 0) (|top#51| state)) #b1) (not true))) ; $assume$choose/fir.v:9$70
(define-fun |top_a| ((state |top_s|)) Bool true)
(define-fun |top_u| ((state |top_s|)) Bool (and
  (|top_u 0| state)
  (|top_u 1| state)
  (|top_u 2| state)
  (|top_u 3| state)
  (|top_u 4| state)
  (|top_u 5| state)
  (|top_u 6| state)
))
(define-fun |top_i| ((state |top_s|)) Bool true)
(define-fun |top_h| ((state |top_s|)) Bool true)
(define-fun |top_t| ((state |top_s|) (next_state |top_s|)) Bool true) ; end of module top
(declare-fun s () |top_s|)
(assert (|top_u| s))
(check-sat)
