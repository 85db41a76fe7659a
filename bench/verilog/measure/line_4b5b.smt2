(set-logic QF_BV)
(define-sort |top_s| () (_ BitVec 21))
(define-fun |top_is| ((state |top_s|)) Bool (= ((_ extract 0 0) state) #b1))
(define-fun |top#0| ((state |top_s|)) (_ BitVec 20) ((_ extract 20 1) state)) ; \line
(define-fun |top_n line| ((state |top_s|)) (_ BitVec 20) (|top#0| state))
(define-fun |top#1| ((state |top_s|)) Bool (= ((_ extract 19 15) (|top#0| state)) #b11101)) ; $procmux$110_CMP
(define-fun |top#2| ((state |top_s|)) Bool (= ((_ extract 19 15) (|top#0| state)) #b11100)) ; $procmux$111_CMP
(define-fun |top#3| ((state |top_s|)) Bool (= ((_ extract 19 15) (|top#0| state)) #b11011)) ; $procmux$112_CMP
(define-fun |top#4| ((state |top_s|)) Bool (= ((_ extract 19 15) (|top#0| state)) #b11010)) ; $procmux$113_CMP
(define-fun |top#5| ((state |top_s|)) Bool (= ((_ extract 19 15) (|top#0| state)) #b10111)) ; $procmux$114_CMP
(define-fun |top#6| ((state |top_s|)) Bool (= ((_ extract 19 15) (|top#0| state)) #b10110)) ; $procmux$115_CMP
(define-fun |top#7| ((state |top_s|)) Bool (= ((_ extract 19 15) (|top#0| state)) #b10011)) ; $procmux$116_CMP
(define-fun |top#8| ((state |top_s|)) Bool (= ((_ extract 19 15) (|top#0| state)) #b10010)) ; $procmux$117_CMP
(define-fun |top#9| ((state |top_s|)) Bool (= ((_ extract 19 15) (|top#0| state)) #b01111)) ; $procmux$118_CMP
(define-fun |top#10| ((state |top_s|)) Bool (= ((_ extract 19 15) (|top#0| state)) #b01110)) ; $procmux$119_CMP
(define-fun |top#11| ((state |top_s|)) Bool (= ((_ extract 19 15) (|top#0| state)) #b01011)) ; $procmux$120_CMP
(define-fun |top#12| ((state |top_s|)) Bool (= ((_ extract 19 15) (|top#0| state)) #b01010)) ; $procmux$121_CMP
(define-fun |top#13| ((state |top_s|)) Bool (= ((_ extract 19 15) (|top#0| state)) #b10101)) ; $procmux$122_CMP
(define-fun |top#14| ((state |top_s|)) Bool (= ((_ extract 19 15) (|top#0| state)) #b10100)) ; $procmux$123_CMP
(define-fun |top#15| ((state |top_s|)) Bool (= ((_ extract 19 15) (|top#0| state)) #b01001)) ; $procmux$124_CMP
(define-fun |top#16| ((state |top_s|)) Bool (= ((_ extract 19 15) (|top#0| state)) #b11110)) ; $procmux$142_CMP
(define-fun |top#17| ((state |top_s|)) Bool (distinct (concat (ite (|top#16| state) #b1 #b0) (concat (ite (|top#15| state) #b1 #b0) (concat (ite (|top#14| state) #b1 #b0) (concat (ite (|top#13| state) #b1 #b0) (concat (ite (|top#12| state) #b1 #b0) (concat (ite (|top#11| state) #b1 #b0) (concat (ite (|top#10| state) #b1 #b0) (concat (ite (|top#9| state) #b1 #b0) (concat (ite (|top#8| state) #b1 #b0) (concat (ite (|top#7| state) #b1 #b0) (concat (ite (|top#6| state) #b1 #b0) (concat (ite (|top#5| state) #b1 #b0) (concat (ite (|top#4| state) #b1 #b0) (concat (ite (|top#3| state) #b1 #b0) (concat (ite (|top#2| state) #b1 #b0) (ite (|top#1| state) #b1 #b0)))))))))))))))) #b0000000000000000)) ; $auto$opt_reduce.cc:134:opt_pmux$251
(define-fun |top#18| ((state |top_s|)) Bool (= ((_ extract 14 10) (|top#0| state)) #b11101)) ; $procmux$145_CMP
(define-fun |top#19| ((state |top_s|)) Bool (= ((_ extract 14 10) (|top#0| state)) #b11100)) ; $procmux$146_CMP
(define-fun |top#20| ((state |top_s|)) Bool (= ((_ extract 14 10) (|top#0| state)) #b11011)) ; $procmux$147_CMP
(define-fun |top#21| ((state |top_s|)) Bool (= ((_ extract 14 10) (|top#0| state)) #b11010)) ; $procmux$148_CMP
(define-fun |top#22| ((state |top_s|)) Bool (= ((_ extract 14 10) (|top#0| state)) #b10111)) ; $procmux$149_CMP
(define-fun |top#23| ((state |top_s|)) Bool (= ((_ extract 14 10) (|top#0| state)) #b10110)) ; $procmux$150_CMP
(define-fun |top#24| ((state |top_s|)) Bool (= ((_ extract 14 10) (|top#0| state)) #b10011)) ; $procmux$151_CMP
(define-fun |top#25| ((state |top_s|)) Bool (= ((_ extract 14 10) (|top#0| state)) #b10010)) ; $procmux$152_CMP
(define-fun |top#26| ((state |top_s|)) Bool (= ((_ extract 14 10) (|top#0| state)) #b01111)) ; $procmux$153_CMP
(define-fun |top#27| ((state |top_s|)) Bool (= ((_ extract 14 10) (|top#0| state)) #b01110)) ; $procmux$154_CMP
(define-fun |top#28| ((state |top_s|)) Bool (= ((_ extract 14 10) (|top#0| state)) #b01011)) ; $procmux$155_CMP
(define-fun |top#29| ((state |top_s|)) Bool (= ((_ extract 14 10) (|top#0| state)) #b01010)) ; $procmux$156_CMP
(define-fun |top#30| ((state |top_s|)) Bool (= ((_ extract 14 10) (|top#0| state)) #b10101)) ; $procmux$157_CMP
(define-fun |top#31| ((state |top_s|)) Bool (= ((_ extract 14 10) (|top#0| state)) #b10100)) ; $procmux$158_CMP
(define-fun |top#32| ((state |top_s|)) Bool (= ((_ extract 14 10) (|top#0| state)) #b01001)) ; $procmux$159_CMP
(define-fun |top#33| ((state |top_s|)) Bool (= ((_ extract 14 10) (|top#0| state)) #b11110)) ; $procmux$177_CMP
(define-fun |top#34| ((state |top_s|)) Bool (distinct (concat (ite (|top#33| state) #b1 #b0) (concat (ite (|top#32| state) #b1 #b0) (concat (ite (|top#31| state) #b1 #b0) (concat (ite (|top#30| state) #b1 #b0) (concat (ite (|top#29| state) #b1 #b0) (concat (ite (|top#28| state) #b1 #b0) (concat (ite (|top#27| state) #b1 #b0) (concat (ite (|top#26| state) #b1 #b0) (concat (ite (|top#25| state) #b1 #b0) (concat (ite (|top#24| state) #b1 #b0) (concat (ite (|top#23| state) #b1 #b0) (concat (ite (|top#22| state) #b1 #b0) (concat (ite (|top#21| state) #b1 #b0) (concat (ite (|top#20| state) #b1 #b0) (concat (ite (|top#19| state) #b1 #b0) (ite (|top#18| state) #b1 #b0)))))))))))))))) #b0000000000000000)) ; $auto$opt_reduce.cc:134:opt_pmux$249
(define-fun |top#35| ((state |top_s|)) Bool (= ((_ extract 9 5) (|top#0| state)) #b11101)) ; $procmux$180_CMP
(define-fun |top#36| ((state |top_s|)) Bool (= ((_ extract 9 5) (|top#0| state)) #b11100)) ; $procmux$181_CMP
(define-fun |top#37| ((state |top_s|)) Bool (= ((_ extract 9 5) (|top#0| state)) #b11011)) ; $procmux$182_CMP
(define-fun |top#38| ((state |top_s|)) Bool (= ((_ extract 9 5) (|top#0| state)) #b11010)) ; $procmux$183_CMP
(define-fun |top#39| ((state |top_s|)) Bool (= ((_ extract 9 5) (|top#0| state)) #b10111)) ; $procmux$184_CMP
(define-fun |top#40| ((state |top_s|)) Bool (= ((_ extract 9 5) (|top#0| state)) #b10110)) ; $procmux$185_CMP
(define-fun |top#41| ((state |top_s|)) Bool (= ((_ extract 9 5) (|top#0| state)) #b10011)) ; $procmux$186_CMP
(define-fun |top#42| ((state |top_s|)) Bool (= ((_ extract 9 5) (|top#0| state)) #b10010)) ; $procmux$187_CMP
(define-fun |top#43| ((state |top_s|)) Bool (= ((_ extract 9 5) (|top#0| state)) #b01111)) ; $procmux$188_CMP
(define-fun |top#44| ((state |top_s|)) Bool (= ((_ extract 9 5) (|top#0| state)) #b01110)) ; $procmux$189_CMP
(define-fun |top#45| ((state |top_s|)) Bool (= ((_ extract 9 5) (|top#0| state)) #b01011)) ; $procmux$190_CMP
(define-fun |top#46| ((state |top_s|)) Bool (= ((_ extract 9 5) (|top#0| state)) #b01010)) ; $procmux$191_CMP
(define-fun |top#47| ((state |top_s|)) Bool (= ((_ extract 9 5) (|top#0| state)) #b10101)) ; $procmux$192_CMP
(define-fun |top#48| ((state |top_s|)) Bool (= ((_ extract 9 5) (|top#0| state)) #b10100)) ; $procmux$193_CMP
(define-fun |top#49| ((state |top_s|)) Bool (= ((_ extract 9 5) (|top#0| state)) #b01001)) ; $procmux$194_CMP
(define-fun |top#50| ((state |top_s|)) Bool (= ((_ extract 9 5) (|top#0| state)) #b11110)) ; $procmux$212_CMP
(define-fun |top#51| ((state |top_s|)) Bool (distinct (concat (ite (|top#50| state) #b1 #b0) (concat (ite (|top#49| state) #b1 #b0) (concat (ite (|top#48| state) #b1 #b0) (concat (ite (|top#47| state) #b1 #b0) (concat (ite (|top#46| state) #b1 #b0) (concat (ite (|top#45| state) #b1 #b0) (concat (ite (|top#44| state) #b1 #b0) (concat (ite (|top#43| state) #b1 #b0) (concat (ite (|top#42| state) #b1 #b0) (concat (ite (|top#41| state) #b1 #b0) (concat (ite (|top#40| state) #b1 #b0) (concat (ite (|top#39| state) #b1 #b0) (concat (ite (|top#38| state) #b1 #b0) (concat (ite (|top#37| state) #b1 #b0) (concat (ite (|top#36| state) #b1 #b0) (ite (|top#35| state) #b1 #b0)))))))))))))))) #b0000000000000000)) ; $auto$opt_reduce.cc:134:opt_pmux$253
(define-fun |top#52| ((state |top_s|)) Bool (= ((_ extract 4 0) (|top#0| state)) #b11101)) ; $procmux$215_CMP
(define-fun |top#53| ((state |top_s|)) Bool (= ((_ extract 4 0) (|top#0| state)) #b11100)) ; $procmux$216_CMP
(define-fun |top#54| ((state |top_s|)) Bool (= ((_ extract 4 0) (|top#0| state)) #b11011)) ; $procmux$217_CMP
(define-fun |top#55| ((state |top_s|)) Bool (= ((_ extract 4 0) (|top#0| state)) #b11010)) ; $procmux$218_CMP
(define-fun |top#56| ((state |top_s|)) Bool (= ((_ extract 4 0) (|top#0| state)) #b10111)) ; $procmux$219_CMP
(define-fun |top#57| ((state |top_s|)) Bool (= ((_ extract 4 0) (|top#0| state)) #b10110)) ; $procmux$220_CMP
(define-fun |top#58| ((state |top_s|)) Bool (= ((_ extract 4 0) (|top#0| state)) #b10011)) ; $procmux$221_CMP
(define-fun |top#59| ((state |top_s|)) Bool (= ((_ extract 4 0) (|top#0| state)) #b10010)) ; $procmux$222_CMP
(define-fun |top#60| ((state |top_s|)) Bool (= ((_ extract 4 0) (|top#0| state)) #b01111)) ; $procmux$223_CMP
(define-fun |top#61| ((state |top_s|)) Bool (= ((_ extract 4 0) (|top#0| state)) #b01110)) ; $procmux$224_CMP
(define-fun |top#62| ((state |top_s|)) Bool (= ((_ extract 4 0) (|top#0| state)) #b01011)) ; $procmux$225_CMP
(define-fun |top#63| ((state |top_s|)) Bool (= ((_ extract 4 0) (|top#0| state)) #b01010)) ; $procmux$226_CMP
(define-fun |top#64| ((state |top_s|)) Bool (= ((_ extract 4 0) (|top#0| state)) #b10101)) ; $procmux$227_CMP
(define-fun |top#65| ((state |top_s|)) Bool (= ((_ extract 4 0) (|top#0| state)) #b10100)) ; $procmux$228_CMP
(define-fun |top#66| ((state |top_s|)) Bool (= ((_ extract 4 0) (|top#0| state)) #b01001)) ; $procmux$229_CMP
(define-fun |top#67| ((state |top_s|)) Bool (= ((_ extract 4 0) (|top#0| state)) #b11110)) ; $procmux$247_CMP
(define-fun |top#68| ((state |top_s|)) Bool (distinct (concat (ite (|top#67| state) #b1 #b0) (concat (ite (|top#66| state) #b1 #b0) (concat (ite (|top#65| state) #b1 #b0) (concat (ite (|top#64| state) #b1 #b0) (concat (ite (|top#63| state) #b1 #b0) (concat (ite (|top#62| state) #b1 #b0) (concat (ite (|top#61| state) #b1 #b0) (concat (ite (|top#60| state) #b1 #b0) (concat (ite (|top#59| state) #b1 #b0) (concat (ite (|top#58| state) #b1 #b0) (concat (ite (|top#57| state) #b1 #b0) (concat (ite (|top#56| state) #b1 #b0) (concat (ite (|top#55| state) #b1 #b0) (concat (ite (|top#54| state) #b1 #b0) (concat (ite (|top#53| state) #b1 #b0) (ite (|top#52| state) #b1 #b0)))))))))))))))) #b0000000000000000)) ; $1\valid[0:0]
(define-fun |top#69| ((state |top_s|)) (_ BitVec 1) (bvand (ite (|top#51| state) #b1 #b0) (ite (|top#68| state) #b1 #b0))) ; $2\valid[0:0]
(define-fun |top#70| ((state |top_s|)) (_ BitVec 1) (bvand (ite (|top#34| state) #b1 #b0) (|top#69| state))) ; $3\valid[0:0]
(define-fun |top#71| ((state |top_s|)) (_ BitVec 1) (bvand (ite (|top#17| state) #b1 #b0) (|top#70| state))) ; \valid
(define-fun |top_u 0| ((state |top_s|)) Bool (or (= ((_ extract 0 0) (|top#71| state)) #b1) (not true))) ; $assume$measure/line_4b5b.v:21$87
(define-fun |top#72| ((state |top_s|)) (_ BitVec 4) (ite (|top#32| state) #b0001 (ite (|top#31| state) #b0010 (ite (|top#30| state) #b0011 (ite (|top#29| state) #b0100 (ite (|top#28| state) #b0101 (ite (|top#27| state) #b0110 (ite (|top#26| state) #b0111 (ite (|top#25| state) #b1000 (ite (|top#24| state) #b1001 (ite (|top#23| state) #b1010 (ite (|top#22| state) #b1011 (ite (|top#21| state) #b1100 (ite (|top#20| state) #b1101 (ite (|top#19| state) #b1110 (ite (|top#18| state) #b1111 #b0000)))))))))))))))) ; \word [11:8]
(define-fun |top#73| ((state |top_s|)) (_ BitVec 4) (ite (|top#15| state) #b0001 (ite (|top#14| state) #b0010 (ite (|top#13| state) #b0011 (ite (|top#12| state) #b0100 (ite (|top#11| state) #b0101 (ite (|top#10| state) #b0110 (ite (|top#9| state) #b0111 (ite (|top#8| state) #b1000 (ite (|top#7| state) #b1001 (ite (|top#6| state) #b1010 (ite (|top#5| state) #b1011 (ite (|top#4| state) #b1100 (ite (|top#3| state) #b1101 (ite (|top#2| state) #b1110 (ite (|top#1| state) #b1111 #b0000)))))))))))))))) ; \n
(define-fun |top#74| ((state |top_s|)) Bool (= (concat (|top#73| state) (|top#72| state)) #b11010011)) ; $0$formal$measure/line_4b5b.v:22$4_CHECK[0:0]$27
(define-fun |top_u 1| ((state |top_s|)) Bool (or (|top#74| state) (not true))) ; $assume$measure/line_4b5b.v:22$88
(define-fun |top#75| ((state |top_s|)) (_ BitVec 4) (ite (|top#66| state) #b0001 (ite (|top#65| state) #b0010 (ite (|top#64| state) #b0011 (ite (|top#63| state) #b0100 (ite (|top#62| state) #b0101 (ite (|top#61| state) #b0110 (ite (|top#60| state) #b0111 (ite (|top#59| state) #b1000 (ite (|top#58| state) #b1001 (ite (|top#57| state) #b1010 (ite (|top#56| state) #b1011 (ite (|top#55| state) #b1100 (ite (|top#54| state) #b1101 (ite (|top#53| state) #b1110 (ite (|top#52| state) #b1111 #b0000)))))))))))))))) ; \word [3:0]
(define-fun |top#76| ((state |top_s|)) Bool (= (|top#75| state) #b0111)) ; $0$formal$measure/line_4b5b.v:23$5_CHECK[0:0]$29
(define-fun |top_u 2| ((state |top_s|)) Bool (or (|top#76| state) (not true))) ; $assume$measure/line_4b5b.v:23$89
(define-fun |top#77| ((state |top_s|)) (_ BitVec 4) (ite (|top#49| state) #b0001 (ite (|top#48| state) #b0010 (ite (|top#47| state) #b0011 (ite (|top#46| state) #b0100 (ite (|top#45| state) #b0101 (ite (|top#44| state) #b0110 (ite (|top#43| state) #b0111 (ite (|top#42| state) #b1000 (ite (|top#41| state) #b1001 (ite (|top#40| state) #b1010 (ite (|top#39| state) #b1011 (ite (|top#38| state) #b1100 (ite (|top#37| state) #b1101 (ite (|top#36| state) #b1110 (ite (|top#35| state) #b1111 #b0000)))))))))))))))) ; \word [7:4]
(define-fun |top#78| ((state |top_s|)) Bool (bvult #b1001 (|top#77| state))) ; $0$formal$measure/line_4b5b.v:24$6_CHECK[0:0]$31
(define-fun |top_u 3| ((state |top_s|)) Bool (or (|top#78| state) (not true))) ; $assume$measure/line_4b5b.v:24$90
(define-fun |top#79| ((state |top_s|)) Bool (distinct ((_ extract 12 9) (|top#0| state)) #b0000)) ; $0$formal$measure/line_4b5b.v:26$16_CHECK[0:0]$51
(define-fun |top_u 4| ((state |top_s|)) Bool (or (|top#79| state) (not true))) ; $assume$measure/line_4b5b.v:26$100
(define-fun |top#80| ((state |top_s|)) Bool (distinct ((_ extract 13 10) (|top#0| state)) #b0000)) ; $0$formal$measure/line_4b5b.v:26$17_CHECK[0:0]$53
(define-fun |top_u 5| ((state |top_s|)) Bool (or (|top#80| state) (not true))) ; $assume$measure/line_4b5b.v:26$101
(define-fun |top#81| ((state |top_s|)) Bool (distinct ((_ extract 14 11) (|top#0| state)) #b0000)) ; $0$formal$measure/line_4b5b.v:26$18_CHECK[0:0]$55
(define-fun |top_u 6| ((state |top_s|)) Bool (or (|top#81| state) (not true))) ; $assume$measure/line_4b5b.v:26$102
(define-fun |top#82| ((state |top_s|)) Bool (distinct ((_ extract 15 12) (|top#0| state)) #b0000)) ; $0$formal$measure/line_4b5b.v:26$19_CHECK[0:0]$57
(define-fun |top_u 7| ((state |top_s|)) Bool (or (|top#82| state) (not true))) ; $assume$measure/line_4b5b.v:26$103
(define-fun |top#83| ((state |top_s|)) Bool (distinct ((_ extract 16 13) (|top#0| state)) #b0000)) ; $0$formal$measure/line_4b5b.v:26$20_CHECK[0:0]$59
(define-fun |top_u 8| ((state |top_s|)) Bool (or (|top#83| state) (not true))) ; $assume$measure/line_4b5b.v:26$104
(define-fun |top#84| ((state |top_s|)) Bool (distinct ((_ extract 17 14) (|top#0| state)) #b0000)) ; $0$formal$measure/line_4b5b.v:26$21_CHECK[0:0]$61
(define-fun |top_u 9| ((state |top_s|)) Bool (or (|top#84| state) (not true))) ; $assume$measure/line_4b5b.v:26$105
(define-fun |top#85| ((state |top_s|)) Bool (distinct ((_ extract 18 15) (|top#0| state)) #b0000)) ; $0$formal$measure/line_4b5b.v:26$22_CHECK[0:0]$63
(define-fun |top_u 10| ((state |top_s|)) Bool (or (|top#85| state) (not true))) ; $assume$measure/line_4b5b.v:26$106
(define-fun |top#86| ((state |top_s|)) Bool (distinct ((_ extract 19 16) (|top#0| state)) #b0000)) ; $0$formal$measure/line_4b5b.v:26$23_CHECK[0:0]$65
(define-fun |top_u 11| ((state |top_s|)) Bool (or (|top#86| state) (not true))) ; $assume$measure/line_4b5b.v:26$107
(define-fun |top#87| ((state |top_s|)) Bool (distinct ((_ extract 3 0) (|top#0| state)) #b0000)) ; $0$formal$measure/line_4b5b.v:26$7_CHECK[0:0]$33
(define-fun |top_u 12| ((state |top_s|)) Bool (or (|top#87| state) (not true))) ; $assume$measure/line_4b5b.v:26$91
(define-fun |top#88| ((state |top_s|)) Bool (distinct ((_ extract 4 1) (|top#0| state)) #b0000)) ; $0$formal$measure/line_4b5b.v:26$8_CHECK[0:0]$35
(define-fun |top_u 13| ((state |top_s|)) Bool (or (|top#88| state) (not true))) ; $assume$measure/line_4b5b.v:26$92
(define-fun |top#89| ((state |top_s|)) Bool (distinct ((_ extract 5 2) (|top#0| state)) #b0000)) ; $0$formal$measure/line_4b5b.v:26$9_CHECK[0:0]$37
(define-fun |top_u 14| ((state |top_s|)) Bool (or (|top#89| state) (not true))) ; $assume$measure/line_4b5b.v:26$93
(define-fun |top#90| ((state |top_s|)) Bool (distinct ((_ extract 6 3) (|top#0| state)) #b0000)) ; $0$formal$measure/line_4b5b.v:26$10_CHECK[0:0]$39
(define-fun |top_u 15| ((state |top_s|)) Bool (or (|top#90| state) (not true))) ; $assume$measure/line_4b5b.v:26$94
(define-fun |top#91| ((state |top_s|)) Bool (distinct ((_ extract 7 4) (|top#0| state)) #b0000)) ; $0$formal$measure/line_4b5b.v:26$11_CHECK[0:0]$41
(define-fun |top_u 16| ((state |top_s|)) Bool (or (|top#91| state) (not true))) ; $assume$measure/line_4b5b.v:26$95
(define-fun |top#92| ((state |top_s|)) Bool (distinct ((_ extract 8 5) (|top#0| state)) #b0000)) ; $0$formal$measure/line_4b5b.v:26$12_CHECK[0:0]$43
(define-fun |top_u 17| ((state |top_s|)) Bool (or (|top#92| state) (not true))) ; $assume$measure/line_4b5b.v:26$96
(define-fun |top#93| ((state |top_s|)) Bool (distinct ((_ extract 9 6) (|top#0| state)) #b0000)) ; $0$formal$measure/line_4b5b.v:26$13_CHECK[0:0]$45
(define-fun |top_u 18| ((state |top_s|)) Bool (or (|top#93| state) (not true))) ; $assume$measure/line_4b5b.v:26$97
(define-fun |top#94| ((state |top_s|)) Bool (distinct ((_ extract 10 7) (|top#0| state)) #b0000)) ; $0$formal$measure/line_4b5b.v:26$14_CHECK[0:0]$47
(define-fun |top_u 19| ((state |top_s|)) Bool (or (|top#94| state) (not true))) ; $assume$measure/line_4b5b.v:26$98
(define-fun |top#95| ((state |top_s|)) Bool (distinct ((_ extract 11 8) (|top#0| state)) #b0000)) ; $0$formal$measure/line_4b5b.v:26$15_CHECK[0:0]$49
(define-fun |top_u 20| ((state |top_s|)) Bool (or (|top#95| state) (not true))) ; $assume$measure/line_4b5b.v:26$99
(define-fun |top_a| ((state |top_s|)) Bool true)
(define-fun |top_u| ((state |top_s|)) Bool (and
  (|top_u 0| state)
  (|top_u 1| state)
  (|top_u 2| state)
  (|top_u 3| state)
  (|top_u 4| state)
  (|top_u 5| state)
  (|top_u 6| state)
  (|top_u 7| state)
  (|top_u 8| state)
  (|top_u 9| state)
  (|top_u 10| state)
  (|top_u 11| state)
  (|top_u 12| state)
  (|top_u 13| state)
  (|top_u 14| state)
  (|top_u 15| state)
  (|top_u 16| state)
  (|top_u 17| state)
  (|top_u 18| state)
  (|top_u 19| state)
  (|top_u 20| state)
))
(define-fun |top_i| ((state |top_s|)) Bool true)
(define-fun |top_h| ((state |top_s|)) Bool true)
(define-fun |top_t| ((state |top_s|) (next_state |top_s|)) Bool true) ; end of module top
(declare-fun s () |top_s|)
(assert (|top_u| s))
(check-sat)
