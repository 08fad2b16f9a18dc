# mesh traces waypoints 6 40 1000 20 180
$node_(0) set X_ 793.3
$node_(0) set Y_ 822.0
$node_(0) set Z_ 0.0
$ns_ at 0.0 "$node_(0) setdest 619.1 505.3 2.008"
$node_(1) set X_ 662.8
$node_(1) set Y_ 470.3
$node_(1) set Z_ 0.0
$ns_ at 0.0 "$node_(1) setdest 759.7 373.2 15.863"
$ns_ at 8.8 "$node_(1) setdest 272.7 801.9 15.137"
$ns_ at 51.8 "$node_(1) setdest 414.0 538.3 14.277"
$ns_ at 72.9 "$node_(1) setdest 193.0 553.6 16.492"
$ns_ at 86.5 "$node_(1) setdest 265.5 803.4 14.342"
$ns_ at 104.8 "$node_(1) setdest 480.5 629.6 3.676"
$node_(2) set X_ 800.3
$node_(2) set Y_ 804.8
$node_(2) set Z_ 0.0
$ns_ at 0.0 "$node_(2) setdest 445.2 93.8 5.549"
$ns_ at 143.4 "$node_(2) setdest 634.9 291.2 19.125"
$ns_ at 157.9 "$node_(2) setdest 588.6 200.9 13.797"
$ns_ at 165.4 "$node_(2) setdest 508.8 457.0 18.371"
$node_(3) set X_ 514.7
$node_(3) set Y_ 644.6
$node_(3) set Z_ 0.0
$ns_ at 0.0 "$node_(3) setdest 697.9 805.5 19.575"
$ns_ at 12.6 "$node_(3) setdest 28.4 361.4 12.831"
$ns_ at 75.4 "$node_(3) setdest 304.3 589.2 3.614"
$ns_ at 174.6 "$node_(3) setdest 326.3 586.8 4.103"
$node_(4) set X_ 662.7
$node_(4) set Y_ 312.3
$node_(4) set Z_ 0.0
$ns_ at 0.0 "$node_(4) setdest 196.2 483.7 4.486"
$ns_ at 110.9 "$node_(4) setdest 209.9 865.5 14.568"
$ns_ at 137.3 "$node_(4) setdest 119.8 825.6 2.307"
$node_(5) set X_ 332.9
$node_(5) set Y_ 904.4
$node_(5) set Z_ 0.0
$ns_ at 0.0 "$node_(5) setdest 620.3 306.1 8.793"
$ns_ at 75.6 "$node_(5) setdest 389.2 126.8 19.998"
$ns_ at 90.4 "$node_(5) setdest 53.8 422.9 15.434"
$ns_ at 119.5 "$node_(5) setdest 257.5 753.3 6.416"
$node_(6) set X_ 979.3
$node_(6) set Y_ 892.3
$node_(6) set Z_ 0.0
$ns_ at 0.0 "$node_(6) setdest 670.2 889.5 10.049"
$ns_ at 30.9 "$node_(6) setdest 831.3 796.1 11.300"
$ns_ at 47.5 "$node_(6) setdest 470.9 705.7 9.363"
$ns_ at 87.3 "$node_(6) setdest 85.9 746.5 6.785"
$ns_ at 144.5 "$node_(6) setdest 266.1 763.3 5.098"
$node_(7) set X_ 21.9
$node_(7) set Y_ 123.5
$node_(7) set Z_ 0.0
$ns_ at 0.0 "$node_(7) setdest 589.4 361.0 6.614"
$ns_ at 93.2 "$node_(7) setdest 454.2 916.5 6.586"
$node_(8) set X_ 410.6
$node_(8) set Y_ 879.3
$node_(8) set Z_ 0.0
$ns_ at 0.0 "$node_(8) setdest 612.2 267.9 10.545"
$ns_ at 61.2 "$node_(8) setdest 478.5 142.2 8.795"
$ns_ at 82.2 "$node_(8) setdest 305.7 804.7 7.821"
$ns_ at 169.9 "$node_(8) setdest 475.9 884.7 18.615"
$node_(9) set X_ 376.0
$node_(9) set Y_ 603.0
$node_(9) set Z_ 0.0
$ns_ at 0.0 "$node_(9) setdest 320.1 398.3 10.784"
$ns_ at 19.8 "$node_(9) setdest 793.4 936.6 7.234"
$ns_ at 119.0 "$node_(9) setdest 636.3 839.4 3.028"
$node_(10) set X_ 30.1
$node_(10) set Y_ 773.6
$node_(10) set Z_ 0.0
$ns_ at 0.0 "$node_(10) setdest 112.1 718.5 8.516"
$ns_ at 11.8 "$node_(10) setdest 630.2 803.1 3.121"
$node_(11) set X_ 192.6
$node_(11) set Y_ 947.4
$node_(11) set Z_ 0.0
$ns_ at 0.0 "$node_(11) setdest 613.4 422.1 16.081"
$ns_ at 42.0 "$node_(11) setdest 813.5 491.7 10.440"
$ns_ at 62.4 "$node_(11) setdest 280.2 394.7 4.609"
$node_(12) set X_ 625.6
$node_(12) set Y_ 606.6
$node_(12) set Z_ 0.0
$ns_ at 0.0 "$node_(12) setdest 144.3 628.0 3.752"
$ns_ at 128.6 "$node_(12) setdest 105.4 645.6 10.329"
$ns_ at 132.9 "$node_(12) setdest 794.1 631.4 14.625"
$node_(13) set X_ 127.0
$node_(13) set Y_ 832.7
$node_(13) set Z_ 0.0
$ns_ at 0.0 "$node_(13) setdest 83.5 618.1 18.405"
$ns_ at 12.0 "$node_(13) setdest 907.7 893.3 10.136"
$ns_ at 97.9 "$node_(13) setdest 693.8 791.3 4.467"
$ns_ at 151.1 "$node_(13) setdest 943.4 908.8 9.936"
$ns_ at 179.0 "$node_(13) setdest 941.1 902.2 6.975"
$node_(14) set X_ 712.5
$node_(14) set Y_ 63.7
$node_(14) set Z_ 0.0
$ns_ at 0.0 "$node_(14) setdest 800.2 978.1 7.149"
$ns_ at 128.6 "$node_(14) setdest 938.4 92.1 17.445"
$node_(15) set X_ 279.8
$node_(15) set Y_ 966.2
$node_(15) set Z_ 0.0
$ns_ at 0.0 "$node_(15) setdest 430.7 922.2 2.574"
$ns_ at 61.2 "$node_(15) setdest 85.6 816.4 13.494"
$ns_ at 88.1 "$node_(15) setdest 319.8 408.4 5.119"
$node_(16) set X_ 370.5
$node_(16) set Y_ 52.1
$node_(16) set Z_ 0.0
$ns_ at 0.0 "$node_(16) setdest 993.0 765.2 19.096"
$ns_ at 49.7 "$node_(16) setdest 740.8 401.4 3.397"
$node_(17) set X_ 731.5
$node_(17) set Y_ 114.0
$node_(17) set Z_ 0.0
$ns_ at 0.0 "$node_(17) setdest 547.1 464.1 10.902"
$ns_ at 36.4 "$node_(17) setdest 75.2 74.0 11.365"
$ns_ at 90.4 "$node_(17) setdest 33.7 493.5 4.705"
$node_(18) set X_ 281.7
$node_(18) set Y_ 151.0
$node_(18) set Z_ 0.0
$ns_ at 0.0 "$node_(18) setdest 568.4 388.3 6.015"
$ns_ at 62.0 "$node_(18) setdest 221.6 564.1 18.390"
$ns_ at 83.3 "$node_(18) setdest 419.1 163.2 7.697"
$ns_ at 141.5 "$node_(18) setdest 240.3 572.4 16.156"
$ns_ at 169.3 "$node_(18) setdest 294.9 508.5 7.855"
$node_(19) set X_ 381.1
$node_(19) set Y_ 440.9
$node_(19) set Z_ 0.0
$ns_ at 0.0 "$node_(19) setdest 397.5 997.5 11.919"
$ns_ at 46.9 "$node_(19) setdest 662.1 716.4 13.613"
$ns_ at 75.4 "$node_(19) setdest 805.3 372.2 13.998"
$ns_ at 102.2 "$node_(19) setdest 972.6 164.1 13.258"
$ns_ at 122.5 "$node_(19) setdest 818.7 137.1 2.718"
$node_(20) set X_ 759.0
$node_(20) set Y_ 114.6
$node_(20) set Z_ 0.0
$ns_ at 0.0 "$node_(20) setdest 711.0 100.1 8.617"
$ns_ at 6.0 "$node_(20) setdest 32.2 542.8 16.155"
$ns_ at 56.3 "$node_(20) setdest 225.6 565.3 18.601"
$ns_ at 66.9 "$node_(20) setdest 293.5 471.0 15.035"
$ns_ at 74.8 "$node_(20) setdest 864.2 168.6 13.904"
$ns_ at 121.4 "$node_(20) setdest 120.1 112.2 19.698"
$ns_ at 159.4 "$node_(20) setdest 92.5 430.3 15.502"
$node_(21) set X_ 675.9
$node_(21) set Y_ 729.4
$node_(21) set Z_ 0.0
$ns_ at 0.0 "$node_(21) setdest 651.0 287.0 9.981"
$ns_ at 44.5 "$node_(21) setdest 202.1 859.3 16.019"
$ns_ at 90.1 "$node_(21) setdest 787.5 214.0 12.660"
$ns_ at 159.1 "$node_(21) setdest 569.0 450.5 15.406"
$node_(22) set X_ 995.1
$node_(22) set Y_ 708.2
$node_(22) set Z_ 0.0
$ns_ at 0.0 "$node_(22) setdest 683.9 777.0 3.686"
$ns_ at 86.6 "$node_(22) setdest 595.4 32.7 8.609"
$ns_ at 173.8 "$node_(22) setdest 588.2 46.5 2.504"
$node_(23) set X_ 921.3
$node_(23) set Y_ 947.9
$node_(23) set Z_ 0.0
$ns_ at 0.0 "$node_(23) setdest 435.6 832.5 2.932"
$ns_ at 170.4 "$node_(23) setdest 425.1 803.4 3.226"
$node_(24) set X_ 2.6
$node_(24) set Y_ 828.3
$node_(24) set Z_ 0.0
$ns_ at 0.0 "$node_(24) setdest 87.5 590.7 6.918"
$ns_ at 36.6 "$node_(24) setdest 132.4 419.2 5.273"
$ns_ at 70.4 "$node_(24) setdest 977.2 383.9 12.689"
$ns_ at 137.2 "$node_(24) setdest 584.2 614.7 10.648"
$node_(25) set X_ 270.2
$node_(25) set Y_ 136.8
$node_(25) set Z_ 0.0
$ns_ at 0.0 "$node_(25) setdest 888.0 192.5 10.072"
$ns_ at 61.7 "$node_(25) setdest 808.4 576.1 19.065"
$ns_ at 82.4 "$node_(25) setdest 809.5 513.6 4.158"
$ns_ at 97.6 "$node_(25) setdest 592.7 473.7 17.512"
$ns_ at 110.3 "$node_(25) setdest 530.8 694.3 16.609"
$ns_ at 124.2 "$node_(25) setdest 470.4 841.9 18.188"
$ns_ at 133.1 "$node_(25) setdest 154.4 919.1 17.655"
$ns_ at 151.7 "$node_(25) setdest 296.7 801.0 6.533"
$node_(26) set X_ 132.8
$node_(26) set Y_ 371.0
$node_(26) set Z_ 0.0
$ns_ at 0.0 "$node_(26) setdest 510.1 366.8 2.096"
$node_(27) set X_ 304.9
$node_(27) set Y_ 82.5
$node_(27) set Z_ 0.0
$ns_ at 0.0 "$node_(27) setdest 622.5 768.2 18.679"
$ns_ at 40.6 "$node_(27) setdest 141.6 418.5 4.265"
$node_(28) set X_ 910.4
$node_(28) set Y_ 837.0
$node_(28) set Z_ 0.0
$ns_ at 0.0 "$node_(28) setdest 519.8 954.0 11.365"
$ns_ at 36.0 "$node_(28) setdest 776.4 488.1 8.557"
$ns_ at 98.3 "$node_(28) setdest 994.4 841.7 12.650"
$ns_ at 131.3 "$node_(28) setdest 867.2 649.4 16.360"
$ns_ at 145.5 "$node_(28) setdest 752.2 575.0 3.969"
$node_(29) set X_ 603.1
$node_(29) set Y_ 719.7
$node_(29) set Z_ 0.0
$ns_ at 0.0 "$node_(29) setdest 155.1 505.1 4.045"
$ns_ at 123.0 "$node_(29) setdest 335.5 597.9 3.560"
$node_(30) set X_ 980.0
$node_(30) set Y_ 664.9
$node_(30) set Z_ 0.0
$ns_ at 0.0 "$node_(30) setdest 160.8 364.2 4.848"
$node_(31) set X_ 728.0
$node_(31) set Y_ 916.7
$node_(31) set Z_ 0.0
$ns_ at 0.0 "$node_(31) setdest 175.1 184.0 13.320"
$ns_ at 69.1 "$node_(31) setdest 859.5 739.0 10.240"
$ns_ at 155.3 "$node_(31) setdest 611.0 697.6 10.200"
$node_(32) set X_ 803.8
$node_(32) set Y_ 571.9
$node_(32) set Z_ 0.0
$ns_ at 0.0 "$node_(32) setdest 734.0 971.1 13.268"
$ns_ at 30.7 "$node_(32) setdest 808.8 677.7 2.028"
$node_(33) set X_ 882.4
$node_(33) set Y_ 29.9
$node_(33) set Z_ 0.0
$ns_ at 0.0 "$node_(33) setdest 993.6 455.7 3.103"
$ns_ at 142.0 "$node_(33) setdest 675.9 573.1 8.913"
$node_(34) set X_ 623.8
$node_(34) set Y_ 101.9
$node_(34) set Z_ 0.0
$ns_ at 0.0 "$node_(34) setdest 835.6 373.2 16.990"
$ns_ at 20.4 "$node_(34) setdest 147.3 667.3 10.442"
$ns_ at 92.2 "$node_(34) setdest 404.4 19.3 11.571"
$ns_ at 152.6 "$node_(34) setdest 674.0 71.9 10.024"
$node_(35) set X_ 12.5
$node_(35) set Y_ 994.1
$node_(35) set Z_ 0.0
$ns_ at 0.0 "$node_(35) setdest 969.5 678.4 10.642"
$ns_ at 94.8 "$node_(35) setdest 70.4 121.1 14.690"
$ns_ at 167.0 "$node_(35) setdest 216.2 295.9 17.511"
$node_(36) set X_ 437.9
$node_(36) set Y_ 255.3
$node_(36) set Z_ 0.0
$ns_ at 0.0 "$node_(36) setdest 541.8 345.9 11.806"
$ns_ at 11.8 "$node_(36) setdest 884.1 453.0 19.662"
$ns_ at 30.2 "$node_(36) setdest 718.4 45.7 15.444"
$ns_ at 58.8 "$node_(36) setdest 693.9 294.0 2.059"
$node_(37) set X_ 878.9
$node_(37) set Y_ 495.3
$node_(37) set Z_ 0.0
$ns_ at 0.0 "$node_(37) setdest 536.8 170.3 2.638"
$ns_ at 179.0 "$node_(37) setdest 529.3 170.9 7.475"
$node_(38) set X_ 154.0
$node_(38) set Y_ 58.2
$node_(38) set Z_ 0.0
$ns_ at 0.0 "$node_(38) setdest 727.4 702.5 17.877"
$ns_ at 48.4 "$node_(38) setdest 217.6 728.4 12.701"
$ns_ at 88.7 "$node_(38) setdest 90.1 875.0 8.431"
$ns_ at 111.9 "$node_(38) setdest 184.9 183.3 18.638"
$ns_ at 149.5 "$node_(38) setdest 220.8 384.3 11.846"
$ns_ at 166.9 "$node_(38) setdest 242.1 426.1 3.578"
$node_(39) set X_ 429.9
$node_(39) set Y_ 584.5
$node_(39) set Z_ 0.0
$ns_ at 0.0 "$node_(39) setdest 619.0 609.0 6.846"
$ns_ at 28.0 "$node_(39) setdest 638.2 972.2 10.684"
$ns_ at 62.2 "$node_(39) setdest 644.0 837.0 6.542"
$ns_ at 83.0 "$node_(39) setdest 265.6 970.2 7.413"
$ns_ at 137.3 "$node_(39) setdest 426.1 370.9 19.877"
$ns_ at 168.7 "$node_(39) setdest 438.4 425.2 4.924"
