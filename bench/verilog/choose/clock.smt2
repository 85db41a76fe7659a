(set-logic QF_BV)
(define-sort |top_s| () (_ BitVec 17))
(define-fun |top_is| ((state |top_s|)) Bool (= ((_ extract 0 0) state) #b1))
(define-fun |top#0| ((state |top_s|)) (_ BitVec 16) ((_ extract 16 1) state)) ; \seconds
(define-fun |top_n seconds| ((state |top_s|)) (_ BitVec 16) (|top#0| state))
(define-fun |top#1| ((state |top_s|)) Bool (bvult (concat #b0000000000000000 ((_ extract 15 15) (|top#0| state))) #b00000111000010000)) ; $div$choose/clock.v:3$4.division.bit[15].too_small
(define-fun |top#2| ((state |top_s|)) (_ BitVec 1) (bvnot (ite (|top#1| state) #b1 #b0))) ; \hours [15]
(define-fun |top#3| ((state |top_s|)) (_ BitVec 13) (bvsub (concat (|top#2| state) (concat (|top#2| state) (concat (|top#2| state) (concat (|top#2| state) (concat #b000 (concat (|top#2| state) (concat (|top#2| state) (concat (|top#2| state) (concat (|top#2| state) (concat (|top#2| state) #b0)))))))))) #b0000011100001)) ; $techmap$div$choose/clock.v:3$4.division.$sub$division.v:16$41_Y [16:4]
(define-fun |top#4| ((state |top_s|)) Bool (bvult (concat (|top#2| state) (concat (|top#2| state) (concat (|top#2| state) (concat (|top#2| state) (concat #b000 (concat (|top#2| state) (concat (|top#2| state) (concat (|top#2| state) (concat (|top#2| state) (concat (|top#2| state) (concat #b000 ((_ extract 15 14) (|top#0| state))))))))))))) #b00000111000010000)) ; $div$choose/clock.v:3$4.division.bit[14].too_small
(define-fun |top#5| ((state |top_s|)) (_ BitVec 13) (ite (|top#4| state) (concat (|top#2| state) (concat (|top#2| state) (concat (|top#2| state) (concat (|top#2| state) (concat #b000 (concat (|top#2| state) (concat (|top#2| state) (concat (|top#2| state) (concat (|top#2| state) (concat (|top#2| state) #b0)))))))))) (|top#3| state))) ; { $div$choose/clock.v:3$4.division.bit[14].after [16] $div$choose/clock.v:3$4.division.bit[13].before [16:5] }
(define-fun |top#6| ((state |top_s|)) (_ BitVec 13) (bvsub (concat ((_ extract 11 0) (|top#5| state)) #b0) #b0000011100001)) ; $techmap$div$choose/clock.v:3$4.division.$sub$division.v:16$45_Y [16:4]
(define-fun |top#7| ((state |top_s|)) Bool (bvult (concat ((_ extract 11 0) (|top#5| state)) (concat #b00 ((_ extract 15 13) (|top#0| state)))) #b00000111000010000)) ; $div$choose/clock.v:3$4.division.bit[13].too_small
(define-fun |top#8| ((state |top_s|)) (_ BitVec 13) (ite (|top#7| state) (concat ((_ extract 11 0) (|top#5| state)) #b0) (|top#6| state))) ; { $div$choose/clock.v:3$4.division.bit[13].after [16] $div$choose/clock.v:3$4.division.bit[12].before [16:5] }
(define-fun |top#9| ((state |top_s|)) (_ BitVec 13) (bvsub (concat ((_ extract 11 0) (|top#8| state)) #b0) #b0000011100001)) ; $techmap$div$choose/clock.v:3$4.division.$sub$division.v:16$49_Y [16:4]
(define-fun |top#10| ((state |top_s|)) Bool (bvult (concat ((_ extract 11 0) (|top#8| state)) (concat #b0 ((_ extract 15 12) (|top#0| state)))) #b00000111000010000)) ; $div$choose/clock.v:3$4.division.bit[12].too_small
(define-fun |top#11| ((state |top_s|)) (_ BitVec 13) (ite (|top#10| state) (concat ((_ extract 11 0) (|top#8| state)) #b0) (|top#9| state))) ; { $div$choose/clock.v:3$4.division.bit[12].after [16] $div$choose/clock.v:3$4.division.bit[11].before [16:5] }
(define-fun |top#12| ((state |top_s|)) (_ BitVec 13) (bvsub (concat ((_ extract 11 0) (|top#11| state)) ((_ extract 15 15) (|top#0| state))) #b0000011100001)) ; $techmap$div$choose/clock.v:3$4.division.$sub$division.v:16$53_Y [16:4]
(define-fun |top#13| ((state |top_s|)) Bool (bvult (concat ((_ extract 11 0) (|top#11| state)) ((_ extract 15 11) (|top#0| state))) #b00000111000010000)) ; $div$choose/clock.v:3$4.division.bit[11].too_small
(define-fun |top#14| ((state |top_s|)) (_ BitVec 13) (ite (|top#13| state) (concat ((_ extract 11 0) (|top#11| state)) ((_ extract 15 15) (|top#0| state))) (|top#12| state))) ; { $div$choose/clock.v:3$4.division.bit[11].after [16] $div$choose/clock.v:3$4.division.bit[10].before [16:5] }
(define-fun |top#15| ((state |top_s|)) (_ BitVec 13) (bvsub (concat ((_ extract 11 0) (|top#14| state)) ((_ extract 14 14) (|top#0| state))) #b0000011100001)) ; $techmap$div$choose/clock.v:3$4.division.$sub$division.v:16$57_Y [16:4]
(define-fun |top#16| ((state |top_s|)) Bool (bvult (concat ((_ extract 11 0) (|top#14| state)) ((_ extract 14 10) (|top#0| state))) #b00000111000010000)) ; $div$choose/clock.v:3$4.division.bit[10].too_small
(define-fun |top#17| ((state |top_s|)) (_ BitVec 13) (ite (|top#16| state) (concat ((_ extract 11 0) (|top#14| state)) ((_ extract 14 14) (|top#0| state))) (|top#15| state))) ; $div$choose/clock.v:3$4.division.bit[10].after [16:4]
(define-fun |top#18| ((state |top_s|)) (_ BitVec 13) (bvsub (concat ((_ extract 11 0) (|top#17| state)) ((_ extract 13 13) (|top#0| state))) #b0000011100001)) ; $techmap$div$choose/clock.v:3$4.division.$sub$division.v:16$61_Y [16:4]
(define-fun |top#19| ((state |top_s|)) Bool (bvult (concat ((_ extract 11 0) (|top#17| state)) ((_ extract 13 9) (|top#0| state))) #b00000111000010000)) ; $div$choose/clock.v:3$4.division.bit[9].too_small
(define-fun |top#20| ((state |top_s|)) (_ BitVec 13) (ite (|top#19| state) (concat ((_ extract 11 0) (|top#17| state)) ((_ extract 13 13) (|top#0| state))) (|top#18| state))) ; { $div$choose/clock.v:3$4.division.bit[9].after [16] $div$choose/clock.v:3$4.division.bit[8].before [16:5] }
(define-fun |top#21| ((state |top_s|)) (_ BitVec 13) (bvsub (concat ((_ extract 11 0) (|top#20| state)) ((_ extract 12 12) (|top#0| state))) #b0000011100001)) ; $techmap$div$choose/clock.v:3$4.division.$sub$division.v:16$65_Y [16:4]
(define-fun |top#22| ((state |top_s|)) Bool (bvult (concat ((_ extract 11 0) (|top#20| state)) ((_ extract 12 8) (|top#0| state))) #b00000111000010000)) ; $div$choose/clock.v:3$4.division.bit[8].too_small
(define-fun |top#23| ((state |top_s|)) (_ BitVec 13) (ite (|top#22| state) (concat ((_ extract 11 0) (|top#20| state)) ((_ extract 12 12) (|top#0| state))) (|top#21| state))) ; { $div$choose/clock.v:3$4.division.bit[8].after [16] $div$choose/clock.v:3$4.division.bit[7].before [16:5] }
(define-fun |top#24| ((state |top_s|)) (_ BitVec 13) (bvsub (concat ((_ extract 11 0) (|top#23| state)) ((_ extract 11 11) (|top#0| state))) #b0000011100001)) ; $techmap$div$choose/clock.v:3$4.division.$sub$division.v:16$69_Y [16:4]
(define-fun |top#25| ((state |top_s|)) Bool (bvult (concat ((_ extract 11 0) (|top#23| state)) ((_ extract 11 7) (|top#0| state))) #b00000111000010000)) ; $div$choose/clock.v:3$4.division.bit[7].too_small
(define-fun |top#26| ((state |top_s|)) (_ BitVec 13) (ite (|top#25| state) (concat ((_ extract 11 0) (|top#23| state)) ((_ extract 11 11) (|top#0| state))) (|top#24| state))) ; { $div$choose/clock.v:3$4.division.bit[7].after [16] $div$choose/clock.v:3$4.division.bit[6].before [16:5] }
(define-fun |top#27| ((state |top_s|)) (_ BitVec 13) (bvsub (concat ((_ extract 11 0) (|top#26| state)) ((_ extract 10 10) (|top#0| state))) #b0000011100001)) ; $techmap$div$choose/clock.v:3$4.division.$sub$division.v:16$73_Y [16:4]
(define-fun |top#28| ((state |top_s|)) Bool (bvult (concat ((_ extract 11 0) (|top#26| state)) ((_ extract 10 6) (|top#0| state))) #b00000111000010000)) ; $div$choose/clock.v:3$4.division.bit[6].too_small
(define-fun |top#29| ((state |top_s|)) (_ BitVec 13) (ite (|top#28| state) (concat ((_ extract 11 0) (|top#26| state)) ((_ extract 10 10) (|top#0| state))) (|top#27| state))) ; { $div$choose/clock.v:3$4.division.bit[6].after [16] $div$choose/clock.v:3$4.division.bit[5].before [16:5] }
(define-fun |top#30| ((state |top_s|)) (_ BitVec 13) (bvsub (concat ((_ extract 11 0) (|top#29| state)) ((_ extract 9 9) (|top#0| state))) #b0000011100001)) ; $techmap$div$choose/clock.v:3$4.division.$sub$division.v:16$77_Y [16:4]
(define-fun |top#31| ((state |top_s|)) Bool (bvult (concat ((_ extract 11 0) (|top#29| state)) ((_ extract 9 5) (|top#0| state))) #b00000111000010000)) ; $div$choose/clock.v:3$4.division.bit[5].too_small
(define-fun |top#32| ((state |top_s|)) (_ BitVec 13) (ite (|top#31| state) (concat ((_ extract 11 0) (|top#29| state)) ((_ extract 9 9) (|top#0| state))) (|top#30| state))) ; { $div$choose/clock.v:3$4.division.bit[5].after [16] $div$choose/clock.v:3$4.division.bit[4].before [16:5] }
(define-fun |top#33| ((state |top_s|)) (_ BitVec 13) (bvsub (concat ((_ extract 11 0) (|top#32| state)) ((_ extract 8 8) (|top#0| state))) #b0000011100001)) ; $techmap$div$choose/clock.v:3$4.division.$sub$division.v:16$81_Y [16:4]
(define-fun |top#34| ((state |top_s|)) Bool (bvult (concat ((_ extract 11 0) (|top#32| state)) ((_ extract 8 4) (|top#0| state))) #b00000111000010000)) ; $div$choose/clock.v:3$4.division.bit[4].too_small
(define-fun |top#35| ((state |top_s|)) (_ BitVec 13) (ite (|top#34| state) (concat ((_ extract 11 0) (|top#32| state)) ((_ extract 8 8) (|top#0| state))) (|top#33| state))) ; { $div$choose/clock.v:3$4.division.bit[4].after [16] $div$choose/clock.v:3$4.division.bit[3].before [16:5] }
(define-fun |top#36| ((state |top_s|)) (_ BitVec 13) (bvsub (concat ((_ extract 11 0) (|top#35| state)) ((_ extract 7 7) (|top#0| state))) #b0000011100001)) ; $techmap$div$choose/clock.v:3$4.division.$sub$division.v:16$85_Y [16:4]
(define-fun |top#37| ((state |top_s|)) Bool (bvult (concat ((_ extract 11 0) (|top#35| state)) ((_ extract 7 3) (|top#0| state))) #b00000111000010000)) ; $div$choose/clock.v:3$4.division.bit[3].too_small
(define-fun |top#38| ((state |top_s|)) (_ BitVec 13) (ite (|top#37| state) (concat ((_ extract 11 0) (|top#35| state)) ((_ extract 7 7) (|top#0| state))) (|top#36| state))) ; { $div$choose/clock.v:3$4.division.bit[3].after [16] $div$choose/clock.v:3$4.division.bit[2].before [16:5] }
(define-fun |top#39| ((state |top_s|)) (_ BitVec 13) (bvsub (concat ((_ extract 11 0) (|top#38| state)) ((_ extract 6 6) (|top#0| state))) #b0000011100001)) ; $techmap$div$choose/clock.v:3$4.division.$sub$division.v:16$89_Y [16:4]
(define-fun |top#40| ((state |top_s|)) Bool (bvult (concat ((_ extract 11 0) (|top#38| state)) ((_ extract 6 2) (|top#0| state))) #b00000111000010000)) ; $div$choose/clock.v:3$4.division.bit[2].too_small
(define-fun |top#41| ((state |top_s|)) (_ BitVec 13) (ite (|top#40| state) (concat ((_ extract 11 0) (|top#38| state)) ((_ extract 6 6) (|top#0| state))) (|top#39| state))) ; { $div$choose/clock.v:3$4.division.bit[2].after [16] $div$choose/clock.v:3$4.division.bit[1].before [16:5] }
(define-fun |top#42| ((state |top_s|)) (_ BitVec 13) (bvsub (concat ((_ extract 11 0) (|top#41| state)) ((_ extract 5 5) (|top#0| state))) #b0000011100001)) ; $techmap$div$choose/clock.v:3$4.division.$sub$division.v:16$93_Y [16:4]
(define-fun |top#43| ((state |top_s|)) Bool (bvult (concat ((_ extract 11 0) (|top#41| state)) ((_ extract 5 1) (|top#0| state))) #b00000111000010000)) ; $div$choose/clock.v:3$4.division.bit[1].too_small
(define-fun |top#44| ((state |top_s|)) (_ BitVec 13) (ite (|top#43| state) (concat ((_ extract 11 0) (|top#41| state)) ((_ extract 5 5) (|top#0| state))) (|top#42| state))) ; { $div$choose/clock.v:3$4.division.bit[1].after [16] $div$choose/clock.v:3$4.division.bit[0].before [16:5] }
(define-fun |top#45| ((state |top_s|)) Bool (bvult (concat ((_ extract 11 0) (|top#44| state)) ((_ extract 4 0) (|top#0| state))) #b00000111000010000)) ; $div$choose/clock.v:3$4.division.bit[0].too_small
(define-fun |top#46| ((state |top_s|)) (_ BitVec 1) (bvnot (ite (|top#45| state) #b1 #b0))) ; \hours [0]
(define-fun |top#47| ((state |top_s|)) (_ BitVec 1) (bvnot (ite (|top#43| state) #b1 #b0))) ; \hours [1]
(define-fun |top#48| ((state |top_s|)) (_ BitVec 1) (bvnot (ite (|top#40| state) #b1 #b0))) ; \hours [2]
(define-fun |top#49| ((state |top_s|)) (_ BitVec 1) (bvnot (ite (|top#37| state) #b1 #b0))) ; \hours [3]
(define-fun |top#50| ((state |top_s|)) (_ BitVec 1) (bvnot (ite (|top#34| state) #b1 #b0))) ; \hours [4]
(define-fun |top#51| ((state |top_s|)) (_ BitVec 1) (bvnot (ite (|top#31| state) #b1 #b0))) ; \hours [5]
(define-fun |top#52| ((state |top_s|)) (_ BitVec 1) (bvnot (ite (|top#28| state) #b1 #b0))) ; \hours [6]
(define-fun |top#53| ((state |top_s|)) (_ BitVec 1) (bvnot (ite (|top#25| state) #b1 #b0))) ; \hours [7]
(define-fun |top#54| ((state |top_s|)) (_ BitVec 1) (bvnot (ite (|top#22| state) #b1 #b0))) ; \hours [8]
(define-fun |top#55| ((state |top_s|)) (_ BitVec 1) (bvnot (ite (|top#19| state) #b1 #b0))) ; \hours [9]
(define-fun |top#56| ((state |top_s|)) (_ BitVec 1) (bvnot (ite (|top#16| state) #b1 #b0))) ; \hours [10]
(define-fun |top#57| ((state |top_s|)) (_ BitVec 1) (bvnot (ite (|top#13| state) #b1 #b0))) ; \hours [11]
(define-fun |top#58| ((state |top_s|)) (_ BitVec 1) (bvnot (ite (|top#10| state) #b1 #b0))) ; \hours [12]
(define-fun |top#59| ((state |top_s|)) (_ BitVec 1) (bvnot (ite (|top#7| state) #b1 #b0))) ; \hours [13]
(define-fun |top#60| ((state |top_s|)) (_ BitVec 1) (bvnot (ite (|top#4| state) #b1 #b0))) ; \hours [14]
(define-fun |top#61| ((state |top_s|)) Bool (= (concat (|top#2| state) (concat (|top#60| state) (concat (|top#59| state) (concat (|top#58| state) (concat (|top#57| state) (concat (|top#56| state) (concat (|top#55| state) (concat (|top#54| state) (concat (|top#53| state) (concat (|top#52| state) (concat (|top#51| state) (concat (|top#50| state) (concat (|top#49| state) (concat (|top#48| state) (concat (|top#47| state) (|top#46| state)))))))))))))))) #b0000000000000111)) ; $0$formal$choose/clock.v:7$1_CHECK[0:0]$9
(define-fun |top_u 0| ((state |top_s|)) Bool (or (|top#61| state) (not true))) ; $assume$choose/clock.v:7$18
(define-fun |top#62| ((state |top_s|)) (_ BitVec 13) (bvsub (concat ((_ extract 11 0) (|top#44| state)) ((_ extract 4 4) (|top#0| state))) #b0000011100001)) ; $techmap$div$choose/clock.v:3$4.division.$sub$division.v:16$97_Y [16:4]
(define-fun |top#63| ((state |top_s|)) (_ BitVec 13) (ite (|top#45| state) (concat ((_ extract 11 0) (|top#44| state)) ((_ extract 4 4) (|top#0| state))) (|top#62| state))) ; { $mod$choose/clock.v:4$5.division.bit[0].after [16] \rest [15:4] }
(define-fun |top#64| ((state |top_s|)) Bool (bvult (concat #b0000000000000000 ((_ extract 11 11) (|top#63| state))) #b00000000000111100)) ; $div$choose/clock.v:5$6.division.bit[15].too_small
(define-fun |top#65| ((state |top_s|)) (_ BitVec 1) (bvnot (ite (|top#64| state) #b1 #b0))) ; \minutes [15]
(define-fun |top#66| ((state |top_s|)) (_ BitVec 15) (bvsub (concat (|top#65| state) (concat (|top#65| state) (concat (|top#65| state) (concat (|top#65| state) (concat (|top#65| state) (concat (|top#65| state) (concat (|top#65| state) (concat (|top#65| state) (concat (|top#65| state) (concat (|top#65| state) (concat #b000 (concat (|top#65| state) #b0)))))))))))) #b000000000001111)) ; $techmap$div$choose/clock.v:5$6.division.$sub$division.v:16$41_Y [16:2]
(define-fun |top#67| ((state |top_s|)) Bool (bvult (concat (|top#65| state) (concat (|top#65| state) (concat (|top#65| state) (concat (|top#65| state) (concat (|top#65| state) (concat (|top#65| state) (concat (|top#65| state) (concat (|top#65| state) (concat (|top#65| state) (concat (|top#65| state) (concat #b000 (concat (|top#65| state) (concat #b0 ((_ extract 11 10) (|top#63| state))))))))))))))) #b00000000000111100)) ; $div$choose/clock.v:5$6.division.bit[14].too_small
(define-fun |top#68| ((state |top_s|)) (_ BitVec 15) (ite (|top#67| state) (concat (|top#65| state) (concat (|top#65| state) (concat (|top#65| state) (concat (|top#65| state) (concat (|top#65| state) (concat (|top#65| state) (concat (|top#65| state) (concat (|top#65| state) (concat (|top#65| state) (concat (|top#65| state) (concat #b000 (concat (|top#65| state) #b0)))))))))))) (|top#66| state))) ; { $div$choose/clock.v:5$6.division.bit[14].after [16] $div$choose/clock.v:5$6.division.bit[13].before [16:3] }
(define-fun |top#69| ((state |top_s|)) (_ BitVec 15) (bvsub (concat ((_ extract 13 0) (|top#68| state)) ((_ extract 11 11) (|top#63| state))) #b000000000001111)) ; $techmap$div$choose/clock.v:5$6.division.$sub$division.v:16$45_Y [16:2]
(define-fun |top#70| ((state |top_s|)) Bool (bvult (concat ((_ extract 13 0) (|top#68| state)) ((_ extract 11 9) (|top#63| state))) #b00000000000111100)) ; $div$choose/clock.v:5$6.division.bit[13].too_small
(define-fun |top#71| ((state |top_s|)) (_ BitVec 15) (ite (|top#70| state) (concat ((_ extract 13 0) (|top#68| state)) ((_ extract 11 11) (|top#63| state))) (|top#69| state))) ; { $div$choose/clock.v:5$6.division.bit[13].after [16] $div$choose/clock.v:5$6.division.bit[12].before [16:3] }
(define-fun |top#72| ((state |top_s|)) (_ BitVec 15) (bvsub (concat ((_ extract 13 0) (|top#71| state)) ((_ extract 10 10) (|top#63| state))) #b000000000001111)) ; $techmap$div$choose/clock.v:5$6.division.$sub$division.v:16$49_Y [16:2]
(define-fun |top#73| ((state |top_s|)) Bool (bvult (concat ((_ extract 13 0) (|top#71| state)) ((_ extract 10 8) (|top#63| state))) #b00000000000111100)) ; $div$choose/clock.v:5$6.division.bit[12].too_small
(define-fun |top#74| ((state |top_s|)) (_ BitVec 15) (ite (|top#73| state) (concat ((_ extract 13 0) (|top#71| state)) ((_ extract 10 10) (|top#63| state))) (|top#72| state))) ; { $div$choose/clock.v:5$6.division.bit[12].after [16] $div$choose/clock.v:5$6.division.bit[11].before [16:3] }
(define-fun |top#75| ((state |top_s|)) (_ BitVec 15) (bvsub (concat ((_ extract 13 0) (|top#74| state)) ((_ extract 9 9) (|top#63| state))) #b000000000001111)) ; $techmap$div$choose/clock.v:5$6.division.$sub$division.v:16$53_Y [16:2]
(define-fun |top#76| ((state |top_s|)) Bool (bvult (concat ((_ extract 13 0) (|top#74| state)) ((_ extract 9 7) (|top#63| state))) #b00000000000111100)) ; $div$choose/clock.v:5$6.division.bit[11].too_small
(define-fun |top#77| ((state |top_s|)) (_ BitVec 15) (ite (|top#76| state) (concat ((_ extract 13 0) (|top#74| state)) ((_ extract 9 9) (|top#63| state))) (|top#75| state))) ; { $div$choose/clock.v:5$6.division.bit[11].after [16] $div$choose/clock.v:5$6.division.bit[10].before [16:3] }
(define-fun |top#78| ((state |top_s|)) (_ BitVec 15) (bvsub (concat ((_ extract 13 0) (|top#77| state)) ((_ extract 8 8) (|top#63| state))) #b000000000001111)) ; $techmap$div$choose/clock.v:5$6.division.$sub$division.v:16$57_Y [16:2]
(define-fun |top#79| ((state |top_s|)) Bool (bvult (concat ((_ extract 13 0) (|top#77| state)) ((_ extract 8 6) (|top#63| state))) #b00000000000111100)) ; $div$choose/clock.v:5$6.division.bit[10].too_small
(define-fun |top#80| ((state |top_s|)) (_ BitVec 15) (ite (|top#79| state) (concat ((_ extract 13 0) (|top#77| state)) ((_ extract 8 8) (|top#63| state))) (|top#78| state))) ; $div$choose/clock.v:5$6.division.bit[10].after [16:2]
(define-fun |top#81| ((state |top_s|)) (_ BitVec 15) (bvsub (concat ((_ extract 13 0) (|top#80| state)) ((_ extract 7 7) (|top#63| state))) #b000000000001111)) ; $techmap$div$choose/clock.v:5$6.division.$sub$division.v:16$61_Y [16:2]
(define-fun |top#82| ((state |top_s|)) Bool (bvult (concat ((_ extract 13 0) (|top#80| state)) ((_ extract 7 5) (|top#63| state))) #b00000000000111100)) ; $div$choose/clock.v:5$6.division.bit[9].too_small
(define-fun |top#83| ((state |top_s|)) (_ BitVec 15) (ite (|top#82| state) (concat ((_ extract 13 0) (|top#80| state)) ((_ extract 7 7) (|top#63| state))) (|top#81| state))) ; { $div$choose/clock.v:5$6.division.bit[9].after [16] $div$choose/clock.v:5$6.division.bit[8].before [16:3] }
(define-fun |top#84| ((state |top_s|)) (_ BitVec 15) (bvsub (concat ((_ extract 13 0) (|top#83| state)) ((_ extract 6 6) (|top#63| state))) #b000000000001111)) ; $techmap$div$choose/clock.v:5$6.division.$sub$division.v:16$65_Y [16:2]
(define-fun |top#85| ((state |top_s|)) Bool (bvult (concat ((_ extract 13 0) (|top#83| state)) ((_ extract 6 4) (|top#63| state))) #b00000000000111100)) ; $div$choose/clock.v:5$6.division.bit[8].too_small
(define-fun |top#86| ((state |top_s|)) (_ BitVec 15) (ite (|top#85| state) (concat ((_ extract 13 0) (|top#83| state)) ((_ extract 6 6) (|top#63| state))) (|top#84| state))) ; { $div$choose/clock.v:5$6.division.bit[8].after [16] $div$choose/clock.v:5$6.division.bit[7].before [16:3] }
(define-fun |top#87| ((state |top_s|)) (_ BitVec 15) (bvsub (concat ((_ extract 13 0) (|top#86| state)) ((_ extract 5 5) (|top#63| state))) #b000000000001111)) ; $techmap$div$choose/clock.v:5$6.division.$sub$division.v:16$69_Y [16:2]
(define-fun |top#88| ((state |top_s|)) Bool (bvult (concat ((_ extract 13 0) (|top#86| state)) ((_ extract 5 3) (|top#63| state))) #b00000000000111100)) ; $div$choose/clock.v:5$6.division.bit[7].too_small
(define-fun |top#89| ((state |top_s|)) (_ BitVec 15) (ite (|top#88| state) (concat ((_ extract 13 0) (|top#86| state)) ((_ extract 5 5) (|top#63| state))) (|top#87| state))) ; { $div$choose/clock.v:5$6.division.bit[7].after [16] $div$choose/clock.v:5$6.division.bit[6].before [16:3] }
(define-fun |top#90| ((state |top_s|)) (_ BitVec 15) (bvsub (concat ((_ extract 13 0) (|top#89| state)) ((_ extract 4 4) (|top#63| state))) #b000000000001111)) ; $techmap$div$choose/clock.v:5$6.division.$sub$division.v:16$73_Y [16:2]
(define-fun |top#91| ((state |top_s|)) Bool (bvult (concat ((_ extract 13 0) (|top#89| state)) ((_ extract 4 2) (|top#63| state))) #b00000000000111100)) ; $div$choose/clock.v:5$6.division.bit[6].too_small
(define-fun |top#92| ((state |top_s|)) (_ BitVec 15) (ite (|top#91| state) (concat ((_ extract 13 0) (|top#89| state)) ((_ extract 4 4) (|top#63| state))) (|top#90| state))) ; { $div$choose/clock.v:5$6.division.bit[6].after [16] $div$choose/clock.v:5$6.division.bit[5].before [16:3] }
(define-fun |top#93| ((state |top_s|)) (_ BitVec 15) (bvsub (concat ((_ extract 13 0) (|top#92| state)) ((_ extract 3 3) (|top#63| state))) #b000000000001111)) ; $techmap$div$choose/clock.v:5$6.division.$sub$division.v:16$77_Y [16:2]
(define-fun |top#94| ((state |top_s|)) Bool (bvult (concat ((_ extract 13 0) (|top#92| state)) ((_ extract 3 1) (|top#63| state))) #b00000000000111100)) ; $div$choose/clock.v:5$6.division.bit[5].too_small
(define-fun |top#95| ((state |top_s|)) (_ BitVec 15) (ite (|top#94| state) (concat ((_ extract 13 0) (|top#92| state)) ((_ extract 3 3) (|top#63| state))) (|top#93| state))) ; { $div$choose/clock.v:5$6.division.bit[5].after [16] $div$choose/clock.v:5$6.division.bit[4].before [16:3] }
(define-fun |top#96| ((state |top_s|)) (_ BitVec 15) (bvsub (concat ((_ extract 13 0) (|top#95| state)) ((_ extract 2 2) (|top#63| state))) #b000000000001111)) ; $techmap$div$choose/clock.v:5$6.division.$sub$division.v:16$81_Y [16:2]
(define-fun |top#97| ((state |top_s|)) Bool (bvult (concat ((_ extract 13 0) (|top#95| state)) ((_ extract 2 0) (|top#63| state))) #b00000000000111100)) ; $div$choose/clock.v:5$6.division.bit[4].too_small
(define-fun |top#98| ((state |top_s|)) (_ BitVec 15) (ite (|top#97| state) (concat ((_ extract 13 0) (|top#95| state)) ((_ extract 2 2) (|top#63| state))) (|top#96| state))) ; { $div$choose/clock.v:5$6.division.bit[4].after [16] $div$choose/clock.v:5$6.division.bit[3].before [16:3] }
(define-fun |top#99| ((state |top_s|)) (_ BitVec 15) (bvsub (concat ((_ extract 13 0) (|top#98| state)) ((_ extract 1 1) (|top#63| state))) #b000000000001111)) ; $techmap$div$choose/clock.v:5$6.division.$sub$division.v:16$85_Y [16:2]
(define-fun |top#100| ((state |top_s|)) Bool (bvult (concat ((_ extract 13 0) (|top#98| state)) (concat ((_ extract 1 0) (|top#63| state)) ((_ extract 3 3) (|top#0| state)))) #b00000000000111100)) ; $div$choose/clock.v:5$6.division.bit[3].too_small
(define-fun |top#101| ((state |top_s|)) (_ BitVec 15) (ite (|top#100| state) (concat ((_ extract 13 0) (|top#98| state)) ((_ extract 1 1) (|top#63| state))) (|top#99| state))) ; { $div$choose/clock.v:5$6.division.bit[3].after [16] $div$choose/clock.v:5$6.division.bit[2].before [16:3] }
(define-fun |top#102| ((state |top_s|)) (_ BitVec 15) (bvsub (concat ((_ extract 13 0) (|top#101| state)) ((_ extract 0 0) (|top#63| state))) #b000000000001111)) ; $techmap$div$choose/clock.v:5$6.division.$sub$division.v:16$89_Y [16:2]
(define-fun |top#103| ((state |top_s|)) Bool (bvult (concat ((_ extract 13 0) (|top#101| state)) (concat ((_ extract 0 0) (|top#63| state)) ((_ extract 3 2) (|top#0| state)))) #b00000000000111100)) ; $div$choose/clock.v:5$6.division.bit[2].too_small
(define-fun |top#104| ((state |top_s|)) (_ BitVec 15) (ite (|top#103| state) (concat ((_ extract 13 0) (|top#101| state)) ((_ extract 0 0) (|top#63| state))) (|top#102| state))) ; { $div$choose/clock.v:5$6.division.bit[2].after [16] $div$choose/clock.v:5$6.division.bit[1].before [16:3] }
(define-fun |top#105| ((state |top_s|)) (_ BitVec 15) (bvsub (concat ((_ extract 13 0) (|top#104| state)) ((_ extract 3 3) (|top#0| state))) #b000000000001111)) ; $techmap$div$choose/clock.v:5$6.division.$sub$division.v:16$93_Y [16:2]
(define-fun |top#106| ((state |top_s|)) Bool (bvult (concat ((_ extract 13 0) (|top#104| state)) ((_ extract 3 1) (|top#0| state))) #b00000000000111100)) ; $div$choose/clock.v:5$6.division.bit[1].too_small
(define-fun |top#107| ((state |top_s|)) (_ BitVec 15) (ite (|top#106| state) (concat ((_ extract 13 0) (|top#104| state)) ((_ extract 3 3) (|top#0| state))) (|top#105| state))) ; { $div$choose/clock.v:5$6.division.bit[1].after [16] $div$choose/clock.v:5$6.division.bit[0].before [16:3] }
(define-fun |top#108| ((state |top_s|)) Bool (bvult (concat ((_ extract 13 0) (|top#107| state)) ((_ extract 2 0) (|top#0| state))) #b00000000000111100)) ; $div$choose/clock.v:5$6.division.bit[0].too_small
(define-fun |top#109| ((state |top_s|)) (_ BitVec 1) (bvnot (ite (|top#108| state) #b1 #b0))) ; \minutes [0]
(define-fun |top#110| ((state |top_s|)) (_ BitVec 1) (bvnot (ite (|top#106| state) #b1 #b0))) ; \minutes [1]
(define-fun |top#111| ((state |top_s|)) (_ BitVec 1) (bvnot (ite (|top#103| state) #b1 #b0))) ; \minutes [2]
(define-fun |top#112| ((state |top_s|)) (_ BitVec 1) (bvnot (ite (|top#100| state) #b1 #b0))) ; \minutes [3]
(define-fun |top#113| ((state |top_s|)) (_ BitVec 1) (bvnot (ite (|top#97| state) #b1 #b0))) ; \minutes [4]
(define-fun |top#114| ((state |top_s|)) (_ BitVec 1) (bvnot (ite (|top#94| state) #b1 #b0))) ; \minutes [5]
(define-fun |top#115| ((state |top_s|)) (_ BitVec 1) (bvnot (ite (|top#91| state) #b1 #b0))) ; \minutes [6]
(define-fun |top#116| ((state |top_s|)) (_ BitVec 1) (bvnot (ite (|top#88| state) #b1 #b0))) ; \minutes [7]
(define-fun |top#117| ((state |top_s|)) (_ BitVec 1) (bvnot (ite (|top#85| state) #b1 #b0))) ; \minutes [8]
(define-fun |top#118| ((state |top_s|)) (_ BitVec 1) (bvnot (ite (|top#82| state) #b1 #b0))) ; \minutes [9]
(define-fun |top#119| ((state |top_s|)) (_ BitVec 1) (bvnot (ite (|top#79| state) #b1 #b0))) ; \minutes [10]
(define-fun |top#120| ((state |top_s|)) (_ BitVec 1) (bvnot (ite (|top#76| state) #b1 #b0))) ; \minutes [11]
(define-fun |top#121| ((state |top_s|)) (_ BitVec 1) (bvnot (ite (|top#73| state) #b1 #b0))) ; \minutes [12]
(define-fun |top#122| ((state |top_s|)) (_ BitVec 1) (bvnot (ite (|top#70| state) #b1 #b0))) ; \minutes [13]
(define-fun |top#123| ((state |top_s|)) (_ BitVec 1) (bvnot (ite (|top#67| state) #b1 #b0))) ; \minutes [14]
(define-fun |top#124| ((state |top_s|)) (_ BitVec 15) (bvsub (concat ((_ extract 13 0) (|top#107| state)) ((_ extract 2 2) (|top#0| state))) #b000000000001111)) ; $techmap$div$choose/clock.v:5$6.division.$sub$division.v:16$97_Y [16:2]
(define-fun |top#125| ((state |top_s|)) (_ BitVec 15) (ite (|top#108| state) (concat ((_ extract 13 0) (|top#107| state)) ((_ extract 2 2) (|top#0| state))) (|top#124| state))) ; { $mod$choose/clock.v:6$7.division.bit[0].after [16] \left [15:2] }
(define-fun |top#126| ((state |top_s|)) Bool (= (concat (|top#65| state) (concat (|top#123| state) (concat (|top#122| state) (concat (|top#121| state) (concat (|top#120| state) (concat (|top#119| state) (concat (|top#118| state) (concat (|top#117| state) (concat (|top#116| state) (concat (|top#115| state) (concat (|top#114| state) (concat (|top#113| state) (concat (|top#112| state) (concat (|top#111| state) (concat (|top#110| state) (|top#109| state)))))))))))))))) (concat ((_ extract 13 0) (|top#125| state)) ((_ extract 1 0) (|top#0| state))))) ; $0$formal$choose/clock.v:8$2_CHECK[0:0]$11
(define-fun |top_u 1| ((state |top_s|)) Bool (or (|top#126| state) (not true))) ; $assume$choose/clock.v:8$19
(define-fun |top#127| ((state |top_s|)) Bool (bvult #b0000000000101000 (concat ((_ extract 13 0) (|top#125| state)) ((_ extract 1 0) (|top#0| state))))) ; $0$formal$choose/clock.v:9$3_CHECK[0:0]$13
(define-fun |top_u 2| ((state |top_s|)) Bool (or (|top#127| state) (not true))) ; $assume$choose/clock.v:9$20
(define-fun |top_a| ((state |top_s|)) Bool true)
(define-fun |top_u| ((state |top_s|)) Bool (and
  (|top_u 0| state)
  (|top_u 1| state)
  (|top_u 2| state)
))
(define-fun |top_i| ((state |top_s|)) Bool true)
(define-fun |top_h| ((state |top_s|)) Bool true)
(define-fun |top_t| ((state |top_s|) (next_state |top_s|)) Bool true) ; end of module top
(declare-fun s () |top_s|)
(assert (|top_u| s))
(check-sat)
