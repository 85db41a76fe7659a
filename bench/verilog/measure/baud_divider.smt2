(set-logic QF_BV)
(define-sort |top_s| () (_ BitVec 30))
(define-fun |top_is| ((state |top_s|)) Bool (= ((_ extract 0 0) state) #b1))
(define-fun |top#0| ((state |top_s|)) (_ BitVec 16) ((_ extract 16 1) state)) ; \clock
(define-fun |top_n clock| ((state |top_s|)) (_ BitVec 16) (|top#0| state))
(define-fun |top#1| ((state |top_s|)) (_ BitVec 8) ((_ extract 24 17) state)) ; \divisor
(define-fun |top_n divisor| ((state |top_s|)) (_ BitVec 8) (|top#1| state))
(define-fun |top#2| ((state |top_s|)) (_ BitVec 5) ((_ extract 29 25) state)) ; \samples
(define-fun |top_n samples| ((state |top_s|)) (_ BitVec 5) (|top#2| state))
(define-fun |top#3| ((state |top_s|)) Bool (bvult #b1001110001000000 (|top#0| state))) ; $0$formal$measure/baud_divider.v:5$1_CHECK[0:0]$9
(define-fun |top_u 0| ((state |top_s|)) Bool (or (|top#3| state) (not true))) ; $assume$measure/baud_divider.v:5$28
(define-fun |top#4| ((state |top_s|)) Bool (= (|top#2| state) #b01000)) ; $eq$measure/baud_divider.v:7$20_Y
(define-fun |top#5| ((state |top_s|)) Bool (= (|top#2| state) #b10000)) ; $eq$measure/baud_divider.v:7$21_Y
(define-fun |top#6| ((state |top_s|)) (_ BitVec 1) (bvor (ite (|top#4| state) #b1 #b0) (ite (|top#5| state) #b1 #b0))) ; $0$formal$measure/baud_divider.v:6$2_CHECK[0:0]$11
(define-fun |top_u 1| ((state |top_s|)) Bool (or (= ((_ extract 0 0) (|top#6| state)) #b1) (not true))) ; $assume$measure/baud_divider.v:6$29
(define-fun |top#7| ((state |top_s|)) Bool (bvult #b00001010 (|top#1| state))) ; $0$formal$measure/baud_divider.v:7$3_CHECK[0:0]$13
(define-fun |top_u 2| ((state |top_s|)) Bool (or (|top#7| state) (not true))) ; $assume$measure/baud_divider.v:7$30
(define-fun |top#8| ((state |top_s|)) (_ BitVec 16) (bvmul (concat #b00000000 (|top#1| state)) (concat #b00000000000 (|top#2| state)))) ; \step
(define-fun |top#9| ((state |top_s|)) (_ BitVec 17) (bvsub (concat #b0000000000000000 ((_ extract 15 15) (|top#0| state))) (concat #b0 (|top#8| state)))) ; $techmap$div$measure/baud_divider.v:4$7.division.$sub$division.v:16$56_Y
(define-fun |top#10| ((state |top_s|)) Bool (bvult (concat #b0000000000000000 ((_ extract 15 15) (|top#0| state))) (concat #b0 (|top#8| state)))) ; $div$measure/baud_divider.v:4$7.division.bit[15].too_small
(define-fun |top#11| ((state |top_s|)) (_ BitVec 17) (ite (|top#10| state) (concat #b0000000000000000 ((_ extract 15 15) (|top#0| state))) (|top#9| state))) ; { $div$measure/baud_divider.v:4$7.division.bit[15].after [16] $div$measure/baud_divider.v:4$7.division.bit[14].before [16:1] }
(define-fun |top#12| ((state |top_s|)) (_ BitVec 17) (bvsub (concat ((_ extract 15 0) (|top#11| state)) ((_ extract 14 14) (|top#0| state))) (concat #b0 (|top#8| state)))) ; $techmap$div$measure/baud_divider.v:4$7.division.$sub$division.v:16$60_Y
(define-fun |top#13| ((state |top_s|)) Bool (bvult (concat ((_ extract 15 0) (|top#11| state)) ((_ extract 14 14) (|top#0| state))) (concat #b0 (|top#8| state)))) ; $div$measure/baud_divider.v:4$7.division.bit[14].too_small
(define-fun |top#14| ((state |top_s|)) (_ BitVec 17) (ite (|top#13| state) (concat ((_ extract 15 0) (|top#11| state)) ((_ extract 14 14) (|top#0| state))) (|top#12| state))) ; { $div$measure/baud_divider.v:4$7.division.bit[14].after [16] $div$measure/baud_divider.v:4$7.division.bit[13].before [16:1] }
(define-fun |top#15| ((state |top_s|)) (_ BitVec 17) (bvsub (concat ((_ extract 15 0) (|top#14| state)) ((_ extract 13 13) (|top#0| state))) (concat #b0 (|top#8| state)))) ; $techmap$div$measure/baud_divider.v:4$7.division.$sub$division.v:16$64_Y
(define-fun |top#16| ((state |top_s|)) Bool (bvult (concat ((_ extract 15 0) (|top#14| state)) ((_ extract 13 13) (|top#0| state))) (concat #b0 (|top#8| state)))) ; $div$measure/baud_divider.v:4$7.division.bit[13].too_small
(define-fun |top#17| ((state |top_s|)) (_ BitVec 17) (ite (|top#16| state) (concat ((_ extract 15 0) (|top#14| state)) ((_ extract 13 13) (|top#0| state))) (|top#15| state))) ; { $div$measure/baud_divider.v:4$7.division.bit[13].after [16] $div$measure/baud_divider.v:4$7.division.bit[12].before [16:1] }
(define-fun |top#18| ((state |top_s|)) (_ BitVec 17) (bvsub (concat ((_ extract 15 0) (|top#17| state)) ((_ extract 12 12) (|top#0| state))) (concat #b0 (|top#8| state)))) ; $techmap$div$measure/baud_divider.v:4$7.division.$sub$division.v:16$68_Y
(define-fun |top#19| ((state |top_s|)) Bool (bvult (concat ((_ extract 15 0) (|top#17| state)) ((_ extract 12 12) (|top#0| state))) (concat #b0 (|top#8| state)))) ; $div$measure/baud_divider.v:4$7.division.bit[12].too_small
(define-fun |top#20| ((state |top_s|)) (_ BitVec 17) (ite (|top#19| state) (concat ((_ extract 15 0) (|top#17| state)) ((_ extract 12 12) (|top#0| state))) (|top#18| state))) ; { $div$measure/baud_divider.v:4$7.division.bit[12].after [16] $div$measure/baud_divider.v:4$7.division.bit[11].before [16:1] }
(define-fun |top#21| ((state |top_s|)) (_ BitVec 17) (bvsub (concat ((_ extract 15 0) (|top#20| state)) ((_ extract 11 11) (|top#0| state))) (concat #b0 (|top#8| state)))) ; $techmap$div$measure/baud_divider.v:4$7.division.$sub$division.v:16$72_Y
(define-fun |top#22| ((state |top_s|)) Bool (bvult (concat ((_ extract 15 0) (|top#20| state)) ((_ extract 11 11) (|top#0| state))) (concat #b0 (|top#8| state)))) ; $div$measure/baud_divider.v:4$7.division.bit[11].too_small
(define-fun |top#23| ((state |top_s|)) (_ BitVec 17) (ite (|top#22| state) (concat ((_ extract 15 0) (|top#20| state)) ((_ extract 11 11) (|top#0| state))) (|top#21| state))) ; { $div$measure/baud_divider.v:4$7.division.bit[11].after [16] $div$measure/baud_divider.v:4$7.division.bit[10].before [16:1] }
(define-fun |top#24| ((state |top_s|)) (_ BitVec 17) (bvsub (concat ((_ extract 15 0) (|top#23| state)) ((_ extract 10 10) (|top#0| state))) (concat #b0 (|top#8| state)))) ; $techmap$div$measure/baud_divider.v:4$7.division.$sub$division.v:16$76_Y
(define-fun |top#25| ((state |top_s|)) Bool (bvult (concat ((_ extract 15 0) (|top#23| state)) ((_ extract 10 10) (|top#0| state))) (concat #b0 (|top#8| state)))) ; $div$measure/baud_divider.v:4$7.division.bit[10].too_small
(define-fun |top#26| ((state |top_s|)) (_ BitVec 17) (ite (|top#25| state) (concat ((_ extract 15 0) (|top#23| state)) ((_ extract 10 10) (|top#0| state))) (|top#24| state))) ; $div$measure/baud_divider.v:4$7.division.bit[10].after
(define-fun |top#27| ((state |top_s|)) (_ BitVec 17) (bvsub (concat ((_ extract 15 0) (|top#26| state)) ((_ extract 9 9) (|top#0| state))) (concat #b0 (|top#8| state)))) ; $techmap$div$measure/baud_divider.v:4$7.division.$sub$division.v:16$80_Y
(define-fun |top#28| ((state |top_s|)) Bool (bvult (concat ((_ extract 15 0) (|top#26| state)) ((_ extract 9 9) (|top#0| state))) (concat #b0 (|top#8| state)))) ; $div$measure/baud_divider.v:4$7.division.bit[9].too_small
(define-fun |top#29| ((state |top_s|)) (_ BitVec 17) (ite (|top#28| state) (concat ((_ extract 15 0) (|top#26| state)) ((_ extract 9 9) (|top#0| state))) (|top#27| state))) ; { $div$measure/baud_divider.v:4$7.division.bit[9].after [16] $div$measure/baud_divider.v:4$7.division.bit[8].before [16:1] }
(define-fun |top#30| ((state |top_s|)) (_ BitVec 17) (bvsub (concat ((_ extract 15 0) (|top#29| state)) ((_ extract 8 8) (|top#0| state))) (concat #b0 (|top#8| state)))) ; $techmap$div$measure/baud_divider.v:4$7.division.$sub$division.v:16$84_Y
(define-fun |top#31| ((state |top_s|)) Bool (bvult (concat ((_ extract 15 0) (|top#29| state)) ((_ extract 8 8) (|top#0| state))) (concat #b0 (|top#8| state)))) ; $div$measure/baud_divider.v:4$7.division.bit[8].too_small
(define-fun |top#32| ((state |top_s|)) (_ BitVec 17) (ite (|top#31| state) (concat ((_ extract 15 0) (|top#29| state)) ((_ extract 8 8) (|top#0| state))) (|top#30| state))) ; { $div$measure/baud_divider.v:4$7.division.bit[8].after [16] $div$measure/baud_divider.v:4$7.division.bit[7].before [16:1] }
(define-fun |top#33| ((state |top_s|)) (_ BitVec 17) (bvsub (concat ((_ extract 15 0) (|top#32| state)) ((_ extract 7 7) (|top#0| state))) (concat #b0 (|top#8| state)))) ; $techmap$div$measure/baud_divider.v:4$7.division.$sub$division.v:16$88_Y
(define-fun |top#34| ((state |top_s|)) Bool (bvult (concat ((_ extract 15 0) (|top#32| state)) ((_ extract 7 7) (|top#0| state))) (concat #b0 (|top#8| state)))) ; $div$measure/baud_divider.v:4$7.division.bit[7].too_small
(define-fun |top#35| ((state |top_s|)) (_ BitVec 17) (ite (|top#34| state) (concat ((_ extract 15 0) (|top#32| state)) ((_ extract 7 7) (|top#0| state))) (|top#33| state))) ; { $div$measure/baud_divider.v:4$7.division.bit[7].after [16] $div$measure/baud_divider.v:4$7.division.bit[6].before [16:1] }
(define-fun |top#36| ((state |top_s|)) (_ BitVec 17) (bvsub (concat ((_ extract 15 0) (|top#35| state)) ((_ extract 6 6) (|top#0| state))) (concat #b0 (|top#8| state)))) ; $techmap$div$measure/baud_divider.v:4$7.division.$sub$division.v:16$92_Y
(define-fun |top#37| ((state |top_s|)) Bool (bvult (concat ((_ extract 15 0) (|top#35| state)) ((_ extract 6 6) (|top#0| state))) (concat #b0 (|top#8| state)))) ; $div$measure/baud_divider.v:4$7.division.bit[6].too_small
(define-fun |top#38| ((state |top_s|)) (_ BitVec 17) (ite (|top#37| state) (concat ((_ extract 15 0) (|top#35| state)) ((_ extract 6 6) (|top#0| state))) (|top#36| state))) ; { $div$measure/baud_divider.v:4$7.division.bit[6].after [16] $div$measure/baud_divider.v:4$7.division.bit[5].before [16:1] }
(define-fun |top#39| ((state |top_s|)) (_ BitVec 17) (bvsub (concat ((_ extract 15 0) (|top#38| state)) ((_ extract 5 5) (|top#0| state))) (concat #b0 (|top#8| state)))) ; $techmap$div$measure/baud_divider.v:4$7.division.$sub$division.v:16$96_Y
(define-fun |top#40| ((state |top_s|)) Bool (bvult (concat ((_ extract 15 0) (|top#38| state)) ((_ extract 5 5) (|top#0| state))) (concat #b0 (|top#8| state)))) ; $div$measure/baud_divider.v:4$7.division.bit[5].too_small
(define-fun |top#41| ((state |top_s|)) (_ BitVec 17) (ite (|top#40| state) (concat ((_ extract 15 0) (|top#38| state)) ((_ extract 5 5) (|top#0| state))) (|top#39| state))) ; { $div$measure/baud_divider.v:4$7.division.bit[5].after [16] $div$measure/baud_divider.v:4$7.division.bit[4].before [16:1] }
(define-fun |top#42| ((state |top_s|)) (_ BitVec 17) (bvsub (concat ((_ extract 15 0) (|top#41| state)) ((_ extract 4 4) (|top#0| state))) (concat #b0 (|top#8| state)))) ; $techmap$div$measure/baud_divider.v:4$7.division.$sub$division.v:16$100_Y
(define-fun |top#43| ((state |top_s|)) Bool (bvult (concat ((_ extract 15 0) (|top#41| state)) ((_ extract 4 4) (|top#0| state))) (concat #b0 (|top#8| state)))) ; $div$measure/baud_divider.v:4$7.division.bit[4].too_small
(define-fun |top#44| ((state |top_s|)) (_ BitVec 17) (ite (|top#43| state) (concat ((_ extract 15 0) (|top#41| state)) ((_ extract 4 4) (|top#0| state))) (|top#42| state))) ; { $div$measure/baud_divider.v:4$7.division.bit[4].after [16] $div$measure/baud_divider.v:4$7.division.bit[3].before [16:1] }
(define-fun |top#45| ((state |top_s|)) (_ BitVec 17) (bvsub (concat ((_ extract 15 0) (|top#44| state)) ((_ extract 3 3) (|top#0| state))) (concat #b0 (|top#8| state)))) ; $techmap$div$measure/baud_divider.v:4$7.division.$sub$division.v:16$104_Y
(define-fun |top#46| ((state |top_s|)) Bool (bvult (concat ((_ extract 15 0) (|top#44| state)) ((_ extract 3 3) (|top#0| state))) (concat #b0 (|top#8| state)))) ; $div$measure/baud_divider.v:4$7.division.bit[3].too_small
(define-fun |top#47| ((state |top_s|)) (_ BitVec 17) (ite (|top#46| state) (concat ((_ extract 15 0) (|top#44| state)) ((_ extract 3 3) (|top#0| state))) (|top#45| state))) ; { $div$measure/baud_divider.v:4$7.division.bit[3].after [16] $div$measure/baud_divider.v:4$7.division.bit[2].before [16:1] }
(define-fun |top#48| ((state |top_s|)) (_ BitVec 17) (bvsub (concat ((_ extract 15 0) (|top#47| state)) ((_ extract 2 2) (|top#0| state))) (concat #b0 (|top#8| state)))) ; $techmap$div$measure/baud_divider.v:4$7.division.$sub$division.v:16$108_Y
(define-fun |top#49| ((state |top_s|)) Bool (bvult (concat ((_ extract 15 0) (|top#47| state)) ((_ extract 2 2) (|top#0| state))) (concat #b0 (|top#8| state)))) ; $div$measure/baud_divider.v:4$7.division.bit[2].too_small
(define-fun |top#50| ((state |top_s|)) (_ BitVec 17) (ite (|top#49| state) (concat ((_ extract 15 0) (|top#47| state)) ((_ extract 2 2) (|top#0| state))) (|top#48| state))) ; { $div$measure/baud_divider.v:4$7.division.bit[2].after [16] $div$measure/baud_divider.v:4$7.division.bit[1].before [16:1] }
(define-fun |top#51| ((state |top_s|)) (_ BitVec 17) (bvsub (concat ((_ extract 15 0) (|top#50| state)) ((_ extract 1 1) (|top#0| state))) (concat #b0 (|top#8| state)))) ; $techmap$div$measure/baud_divider.v:4$7.division.$sub$division.v:16$112_Y
(define-fun |top#52| ((state |top_s|)) Bool (bvult (concat ((_ extract 15 0) (|top#50| state)) ((_ extract 1 1) (|top#0| state))) (concat #b0 (|top#8| state)))) ; $div$measure/baud_divider.v:4$7.division.bit[1].too_small
(define-fun |top#53| ((state |top_s|)) (_ BitVec 17) (ite (|top#52| state) (concat ((_ extract 15 0) (|top#50| state)) ((_ extract 1 1) (|top#0| state))) (|top#51| state))) ; { $div$measure/baud_divider.v:4$7.division.bit[1].after [16] $div$measure/baud_divider.v:4$7.division.bit[0].before [16:1] }
(define-fun |top#54| ((state |top_s|)) Bool (bvult (concat ((_ extract 15 0) (|top#53| state)) ((_ extract 0 0) (|top#0| state))) (concat #b0 (|top#8| state)))) ; $div$measure/baud_divider.v:4$7.division.bit[0].too_small
(define-fun |top#55| ((state |top_s|)) (_ BitVec 1) (bvnot (ite (|top#54| state) #b1 #b0))) ; \rate [0]
(define-fun |top#56| ((state |top_s|)) (_ BitVec 1) (bvnot (ite (|top#52| state) #b1 #b0))) ; \rate [1]
(define-fun |top#57| ((state |top_s|)) (_ BitVec 1) (bvnot (ite (|top#49| state) #b1 #b0))) ; \rate [2]
(define-fun |top#58| ((state |top_s|)) (_ BitVec 1) (bvnot (ite (|top#46| state) #b1 #b0))) ; \rate [3]
(define-fun |top#59| ((state |top_s|)) (_ BitVec 1) (bvnot (ite (|top#43| state) #b1 #b0))) ; \rate [4]
(define-fun |top#60| ((state |top_s|)) (_ BitVec 1) (bvnot (ite (|top#40| state) #b1 #b0))) ; \rate [5]
(define-fun |top#61| ((state |top_s|)) (_ BitVec 1) (bvnot (ite (|top#37| state) #b1 #b0))) ; \rate [6]
(define-fun |top#62| ((state |top_s|)) (_ BitVec 1) (bvnot (ite (|top#34| state) #b1 #b0))) ; \rate [7]
(define-fun |top#63| ((state |top_s|)) (_ BitVec 1) (bvnot (ite (|top#31| state) #b1 #b0))) ; \rate [8]
(define-fun |top#64| ((state |top_s|)) (_ BitVec 1) (bvnot (ite (|top#28| state) #b1 #b0))) ; \rate [9]
(define-fun |top#65| ((state |top_s|)) (_ BitVec 1) (bvnot (ite (|top#25| state) #b1 #b0))) ; \rate [10]
(define-fun |top#66| ((state |top_s|)) (_ BitVec 1) (bvnot (ite (|top#22| state) #b1 #b0))) ; \rate [11]
(define-fun |top#67| ((state |top_s|)) (_ BitVec 1) (bvnot (ite (|top#19| state) #b1 #b0))) ; \rate [12]
(define-fun |top#68| ((state |top_s|)) (_ BitVec 1) (bvnot (ite (|top#16| state) #b1 #b0))) ; \rate [13]
(define-fun |top#69| ((state |top_s|)) (_ BitVec 1) (bvnot (ite (|top#13| state) #b1 #b0))) ; \rate [14]
(define-fun |top#70| ((state |top_s|)) (_ BitVec 1) (bvnot (ite (|top#10| state) #b1 #b0))) ; \rate [15]
(define-fun |top#71| ((state |top_s|)) Bool (bvult #b0000000001110000 (concat (|top#70| state) (concat (|top#69| state) (concat (|top#68| state) (concat (|top#67| state) (concat (|top#66| state) (concat (|top#65| state) (concat (|top#64| state) (concat (|top#63| state) (concat (|top#62| state) (concat (|top#61| state) (concat (|top#60| state) (concat (|top#59| state) (concat (|top#58| state) (concat (|top#57| state) (concat (|top#56| state) (|top#55| state)))))))))))))))))) ; $gt$measure/baud_divider.v:9$24_Y
(define-fun |top#72| ((state |top_s|)) Bool (bvult (concat (|top#70| state) (concat (|top#69| state) (concat (|top#68| state) (concat (|top#67| state) (concat (|top#66| state) (concat (|top#65| state) (concat (|top#64| state) (concat (|top#63| state) (concat (|top#62| state) (concat (|top#61| state) (concat (|top#60| state) (concat (|top#59| state) (concat (|top#58| state) (concat (|top#57| state) (concat (|top#56| state) (|top#55| state)))))))))))))))) #b0000000001110110)) ; $logic_and$measure/baud_divider.v:9$26.b
(define-fun |top#73| ((state |top_s|)) (_ BitVec 1) (bvand (ite (|top#71| state) #b1 #b0) (ite (|top#72| state) #b1 #b0))) ; $0$formal$measure/baud_divider.v:8$4_CHECK[0:0]$15
(define-fun |top_u 3| ((state |top_s|)) Bool (or (= ((_ extract 0 0) (|top#73| state)) #b1) (not true))) ; $assume$measure/baud_divider.v:8$31
(define-fun |top#74| ((state |top_s|)) Bool (= ((_ extract 3 0) (|top#0| state)) #b0000)) ; $0$formal$measure/baud_divider.v:9$5_CHECK[0:0]$17
(define-fun |top_u 4| ((state |top_s|)) Bool (or (|top#74| state) (not true))) ; $assume$measure/baud_divider.v:9$32
(define-fun |top_a| ((state |top_s|)) Bool true)
(define-fun |top_u| ((state |top_s|)) Bool (and
  (|top_u 0| state)
  (|top_u 1| state)
  (|top_u 2| state)
  (|top_u 3| state)
  (|top_u 4| state)
))
(define-fun |top_i| ((state |top_s|)) Bool true)
(define-fun |top_h| ((state |top_s|)) Bool true)
(define-fun |top_t| ((state |top_s|) (next_state |top_s|)) Bool true) ; end of module top
(declare-fun s () |top_s|)
(assert (|top_u| s))
(check-sat)
