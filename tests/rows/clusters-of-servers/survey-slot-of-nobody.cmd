verify --survey survey-slot-of-nobody.survey
